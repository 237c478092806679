/* memmove of a long text by all distances up to 40 to both sides, and the other functions of bytes at the same length. */
#include <stdio.h>
#include <string.h>

#define N 300
static char text[N + 100], copy[N + 100];

int main(void)
{
    unsigned long sum = 0;
    int wrong = 0;

    for (int by = -40; by <= 40; by++) {
        for (int i = 0; i < N + 100; i++)
            text[i] = copy[i] = (char)('a' + i * 7 % 26);
        text[N + 99] = 0;
        memmove(text + 50 + by, text + 50, N);
        for (int i = 0; i < N; i++)
            wrong += text[50 + by + i] != copy[50 + i];
        wrong += memcmp(text + 50 + by, copy + 50, N) != 0;
        memset(text + 60 + by, 0, 1);
        sum = sum * 31 + strlen(text + 50 + by) + strlen(text + 61 + by);
    }
    printf("%lu, %d wrong\n", sum, wrong);
    return 0;
}
