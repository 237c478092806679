/* Calls an operation that nobody has set. */
#include <stdio.h>

typedef long operation(long a, long b);

static long apply(operation *f, long a, long b)
{
    return f(a, b) + 1;
}

int main(void)
{
    operation *volatile none = NULL;

    printf("%ld\n", apply(none, 41, 7));
    return 0;
}
