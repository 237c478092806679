/* A program with an atoi of its own, to which it may give a null pointer. */
#include <stdio.h>

int atoi(const char *digits);

int main(void)
{
    printf("%d %d\n", atoi("x42"), atoi(NULL));
    return 0;
}
