#include <mpi.h>
#include <stdio.h>
#include <threads.h>

static int shared = 1;

static int work(void *argument)
{
    (void)argument;
    shared = 2; /* B */
    return 0;
}

int main(int argc, char **argv)
{
    int provided, result;
    thrd_t thread;
    MPI_Request request;

    MPI_Init_thread(&argc, &argv, MPI_THREAD_MULTIPLE, &provided); /* I */
    thrd_create(&thread, work, 0);
    thrd_join(thread, &result);
    MPI_Isend(&shared, 1, MPI_INT, 0, 7, MPI_COMM_SELF, &request); /* A */
    MPI_Recv(&result, 1, MPI_INT, 0, 7, MPI_COMM_SELF, MPI_STATUS_IGNORE);
    MPI_Wait(&request, MPI_STATUS_IGNORE);
    printf("the thread says %d\n", result);
    MPI_Finalize();
    return 0;
}
