/* Adds a series up, which takes longer than the budget. */
#include <stdio.h>

int main(void)
{
    double sum = 0;
    for (int k = 1; k <= 1000000; k++)
        sum += 1.0 / k / k;
    printf("%f\n", sum);
    return 0;
}
