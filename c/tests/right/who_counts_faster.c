/* Main and a thread count; main has half as far to go. Who is there first depends on which hart takes more turns. */
#include <stdio.h>
#include <threads.h>

static volatile int first;

static int count_to(int last, int who)
{
    for (volatile int i = 0; i < last; i++)
        ;
    if (!first)
        first = who;
    return 0;
}

static int count_far(void *unused)
{
    (void)unused;
    return count_to(4000, 2);
}

int main(void)
{
    thrd_t thread;

    thrd_create(&thread, count_far, NULL);
    count_to(2000, 1);
    thrd_join(thread, NULL);
    printf("%s was first\n", first == 1 ? "main" : "the thread");
    return 0;
}
