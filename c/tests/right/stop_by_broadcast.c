/* stop_by_broadcast.c: a master hands out numbers to be squared. Wrong: it says by MPI_Bcast that there are no more, and the
   workers wait for a message. */
#include <mpi.h>
#include <stdio.h>

enum { WORK = 1, STOP = 2, TASKS = 5 };

static void master(int size)
{
    int next = 1, answer, sum = 0, stop = -1;
    MPI_Status status;

    for (int worker = 1; worker < size; worker++, next++)
        MPI_Send(&next, 1, MPI_INT, worker, WORK, MPI_COMM_WORLD);
    for (int done = 0; done < TASKS; done++) {
        MPI_Recv(&answer, 1, MPI_INT, MPI_ANY_SOURCE, WORK, MPI_COMM_WORLD, &status);
        sum += answer;
        if (next <= TASKS) {
            MPI_Send(&next, 1, MPI_INT, status.MPI_SOURCE, WORK, MPI_COMM_WORLD);
            next++;
        }
    }
#ifdef RIGHT
    for (int worker = 1; worker < size; worker++)
        MPI_Send(&stop, 1, MPI_INT, worker, STOP, MPI_COMM_WORLD);
#else
    MPI_Bcast(&stop, 1, MPI_INT, 0, MPI_COMM_WORLD);
#endif
    printf("sum %d\n", sum);
}

static void worker(void)
{
    int task;
    MPI_Status status;

    for (;;) {
        MPI_Recv(&task, 1, MPI_INT, 0, MPI_ANY_TAG, MPI_COMM_WORLD, &status);
        if (status.MPI_TAG == STOP)
            return;
        task *= task;
        MPI_Send(&task, 1, MPI_INT, 0, WORK, MPI_COMM_WORLD);
    }
}

int main(int argc, char **argv)
{
    int rank, size;

    MPI_Init(&argc, &argv);
    MPI_Comm_rank(MPI_COMM_WORLD, &rank);
    MPI_Comm_size(MPI_COMM_WORLD, &size);
    if (rank == 0)
        master(size);
    else
        worker();
    MPI_Finalize();
    return 0;
}
