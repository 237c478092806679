#include <mpi.h>
#include <stdio.h>
#include <threads.h>

static mtx_t turn;

static int work(void *argument)
{
    int got = 0;

    (void)argument;
    for (int i = 0; i < 3; i++) {
        mtx_lock(&turn);
        MPI_Sendrecv(&i, 1, MPI_INT, 0, 7, &got, 1, MPI_INT, 0, 7, MPI_COMM_SELF, MPI_STATUS_IGNORE); /* A */
        mtx_unlock(&turn);
    }
    return got;
}

int main(int argc, char **argv)
{
    int provided, result;
    thrd_t thread;

    MPI_Init_thread(&argc, &argv, MPI_THREAD_SERIALIZED, &provided); /* I */
    mtx_init(&turn, mtx_plain);
    thrd_create(&thread, work, 0);
    for (int i = 0; i < 3; i++) {
        mtx_lock(&turn);
        MPI_Sendrecv(&i, 1, MPI_INT, 0, 8, &result, 1, MPI_INT, 0, 8, MPI_COMM_SELF, MPI_STATUS_IGNORE); /* B */
        mtx_unlock(&turn);
    }
    thrd_join(thread, &result);
    printf("the thread says %d\n", result);
    MPI_Finalize();
    return 0;
}
