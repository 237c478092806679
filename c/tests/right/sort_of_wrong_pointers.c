/* Sorts pointers by what they point to, where one points nowhere. */
#include <stdio.h>
#include <stdlib.h>

static int by_value(const void *a, const void *b)
{
    const int *const *x = a, *const *y = b;
    return **x - **y;
}

int main(void)
{
    int numbers[3] = {30, 10, 20};
    int *found[4] = {&numbers[0], &numbers[1], &numbers[2], (int *)0x40000000};
    qsort(found, 4, sizeof found[0], by_value);
    printf("%d\n", *found[0]);
    return 0;
}
