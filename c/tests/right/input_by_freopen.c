#include <stdio.h>

int main(void)
{
    int a, b;

    if (freopen("pair.txt", "r", stdin) == NULL)
        return 1;
    if (scanf("%d %d", &a, &b) == 2)
        printf("%d\n", a + b);
    return 0;
}
