/* Prints a number as if it were a text. */
#include <stdio.h>

int main(void)
{
    int count = 12;
    printf("there are %s of them\n", (char *)(long)(count * 100000000));
    return 0;
}
