/* Rank 0 gives away K jobs, and whoever is done gets the next. It adds up the answers in the order in which they come.

   c/rvmc-cc -n 4 -DK=4 --memory 49152 --stack 4096 -o farm_4_4.image c/schedules/farm.c
   c/rvmc-cc -n 4 -DK=6 --memory 49152 --stack 4096 -o farm_4_6.image c/schedules/farm.c */
#include <mpi.h>
#include <stdio.h>

enum { JOB = 1, ANSWER };

static void give(int *sent, int worker)
{
    int stop = -1;

    if (*sent < K) {
        ++*sent;
        MPI_Send(sent, 1, MPI_INT, worker, JOB, MPI_COMM_WORLD);
    } else {
        MPI_Send(&stop, 1, MPI_INT, worker, JOB, MPI_COMM_WORLD);
    }
}

static void master(int size)
{
    int sent = 0, sum = 0, answer;
    MPI_Status status;

    for (int worker = 1; worker < size; worker++)
        give(&sent, worker);
    for (int got = 0; got < K; got++) {
        MPI_Recv(&answer, 1, MPI_INT, MPI_ANY_SOURCE, ANSWER, MPI_COMM_WORLD, &status);
        sum += answer;
        give(&sent, status.MPI_SOURCE);
    }
    printf("%d\n", sum);
}

static void worker(void)
{
    int job;

    for (;;) {
        MPI_Recv(&job, 1, MPI_INT, 0, JOB, MPI_COMM_WORLD, MPI_STATUS_IGNORE);
        if (job < 0)
            break;
        job = job * job;
        MPI_Send(&job, 1, MPI_INT, 0, ANSWER, MPI_COMM_WORLD);
    }
}

int main(int argc, char **argv)
{
    int rank, size;

    MPI_Init(&argc, &argv);
    MPI_Comm_rank(MPI_COMM_WORLD, &rank);
    MPI_Comm_size(MPI_COMM_WORLD, &size);
    if (rank == 0)
        master(size);
    else
        worker();
    MPI_Finalize();
    return 0;
}
