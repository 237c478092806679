#include <mpi.h>
#include <stdio.h>
#include <threads.h>

static int work(void *argument)
{
    int number = 3, got = 0;

    (void)argument;
    MPI_Sendrecv(&number, 1, MPI_INT, 0, 7, &got, 1, MPI_INT, 0, 7, MPI_COMM_SELF, MPI_STATUS_IGNORE); /* A */
    return got;
}

int main(int argc, char **argv)
{
    int provided, result;
    thrd_t thread;

    MPI_Init_thread(&argc, &argv, MPI_THREAD_MULTIPLE, &provided); /* I */
    thrd_create(&thread, work, 0);
    thrd_join(thread, &result);
    printf("the thread says %d\n", result);
    MPI_Finalize();
    return 0;
}
