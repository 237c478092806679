/* The table was never made, so its pointer is null. */
#include <stdio.h>

__attribute__((noinline)) static int get(const int *table, int k)
{
    return table[k] + table[0];
}

int main(void)
{
    const int *volatile table = NULL;

    printf("%d\n", get(table, 5));
    return 0;
}
