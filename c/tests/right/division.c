/* Shares numbers among ranks, of which there are none at first. */
#include <stdio.h>

static int share(int all, int ranks, int more)
{
    return all / ranks + more;
}

int main(void)
{
    int volatile ranks = 0;

    printf("%d\n", share(5, ranks, 7));
    printf("%d\n", 5 % ranks);
    printf("%lu\n", 7ul / (unsigned long)ranks);
    printf("%d\n", 9 / 0);
    ranks = 2;
    printf("%d\n", share(6, ranks, 1) + 7 % ranks);
    return 0;
}
