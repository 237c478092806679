/* Each worker sends its multiples, and then says that it is done. The master waits for that before it takes the multiples. */
#include <mpi.h>
#include <stdio.h>

#ifndef WORDS
#define WORDS 4
#endif

enum { MULTIPLES = 1, DONE = 2 };

static int multiples[WORDS];

static void work(int rank)
{
    for (int i = 0; i < WORDS; i++)
        multiples[i] = rank * i;
    MPI_Send(multiples, WORDS, MPI_INT, 0, MULTIPLES, MPI_COMM_WORLD);
    MPI_Send(NULL, 0, MPI_INT, 0, DONE, MPI_COMM_WORLD);
}

static void collect(int workers)
{
    long sum = 0;
    for (int left = workers; left > 0; left--) {
        int done = 0;
        MPI_Status status;
        while (!done)
            MPI_Iprobe(MPI_ANY_SOURCE, DONE, MPI_COMM_WORLD, &done, &status);
        MPI_Recv(NULL, 0, MPI_INT, status.MPI_SOURCE, DONE, MPI_COMM_WORLD, MPI_STATUS_IGNORE);
        MPI_Recv(multiples, WORDS, MPI_INT, status.MPI_SOURCE, MULTIPLES, MPI_COMM_WORLD, MPI_STATUS_IGNORE);
        sum += multiples[1];
    }
    printf("%d workers are done, the sum is %ld\n", workers, sum);
}

int main(int argc, char **argv)
{
    int rank, size;
    MPI_Init(&argc, &argv);
    MPI_Comm_rank(MPI_COMM_WORLD, &rank);
    MPI_Comm_size(MPI_COMM_WORLD, &size);
    if (rank == 0)
        collect(size - 1);
    else
        work(rank);
    MPI_Finalize();
    return 0;
}
