/* Three threads, each with an array of its own on its stack. */
#include <stdio.h>
#include <threads.h>

static int largest(void *argument)
{
    int values[5000], from = *(int *)argument, most = 0;

    for (int i = 0; i < 5000; i++)
        values[i] = from + i;
    for (int i = 0; i < 5000; i++)
        if (values[i] > most)
            most = values[i];
    return most;
}

int main(void)
{
    thrd_t thread[3];
    int from[3], result, sum = 0;

    for (int i = 0; i < 3; i++) {
        from[i] = 1000 * i;
        thrd_create(&thread[i], largest, &from[i]);
    }
    for (int i = 0; i < 3; i++) {
        thrd_join(thread[i], &result);
        sum += result;
    }
    printf("%d\n", sum);
    return 0;
}
