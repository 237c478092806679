#include <mpi.h>
#include <stdio.h>
#include <threads.h>

static int depth(int n)
{
    volatile int locals[8] = {0}; /* A */

    locals[n % 8] = n;
    return n ? depth(n - 1) + locals[n % 8] - n + 1 : 0;
}

static int work(void *argument)
{
    (void)argument;
    return depth(2000);
}

int main(int argc, char **argv)
{
    int provided, result;
    thrd_t thread;

    MPI_Init_thread(&argc, &argv, MPI_THREAD_FUNNELED, &provided); /* I */
    thrd_create(&thread, work, 0);
    thrd_join(thread, &result);
    printf("the thread says %d\n", result);
    MPI_Finalize();
    return 0;
}
