/* Four threads give and take back blocks at the same time. */
#include <stdio.h>
#include <stdlib.h>
#include <string.h>
#include <threads.h>

static int work(void *argument)
{
    unsigned seed = 7 * *(int *)argument + 3;
    unsigned char *block[8] = {0};
    size_t size[8];
    int wrong = 0;

    for (int step = 0; step < 100; step++) {
        int n = step % 8;

        seed = seed * 1103515245 + 12345;
        for (size_t i = 0; block[n] && i < size[n]; i++)
            wrong += block[n][i] != *(int *)argument;
        if (seed >> 30 == 0) {
            free(block[n]);
            block[n] = 0;
        } else {
            size[n] = (seed >> 16) % 200;
            block[n] = realloc(block[n], size[n] + 1);
            memset(block[n], *(int *)argument, size[n]);
        }
    }
    for (int n = 0; n < 8; n++)
        free(block[n]);
    return wrong;
}

int main(void)
{
    thrd_t thread[3];
    int number[4] = {1, 2, 3, 4}, wrong = 0, result;

    for (int i = 0; i < 3; i++)
        thrd_create(&thread[i], work, &number[i]);
    wrong += work(&number[3]);
    for (int i = 0; i < 3; i++) {
        thrd_join(thread[i], &result);
        wrong += result;
    }
    printf("%d wrong\n", wrong);
    return wrong;
}
