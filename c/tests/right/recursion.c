/* Counts how deep it calls itself, with a line of text in each call. */
#include <stdio.h>

static int depth(int n)
{
    volatile char line[80];

    line[0] = (char)n;
    if (n == 0)
        return 0;
    return depth(n - 1) + 1 + (line[0] != (char)n);
}

int main(void)
{
    printf("%d\n", depth(500));
    return 0;
}
