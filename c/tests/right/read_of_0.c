/* Reads its standard input without stdio. */
#include <stdio.h>
#include <unistd.h>

int main(void)
{
    char bytes[100];
    long count, total = 0;

    while ((count = read(0, bytes, sizeof(bytes))) > 0)
        total += count;
    printf("%ld bytes\n", total);
    return 0;
}
