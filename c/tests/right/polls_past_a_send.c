/* Rank 1 polls for the second message, and then receives both in their order. */
#include <mpi.h>
#include <stdio.h>

#ifndef WORDS
#define WORDS 1
#endif
#ifndef POLLED
#define POLLED 2
#endif

static int words[WORDS];

int main(int argc, char **argv)
{
    int rank, flag = 0;
    MPI_Init(&argc, &argv);
    MPI_Comm_rank(MPI_COMM_WORLD, &rank);
    if (rank == 0) {
        MPI_Send(words, WORDS, MPI_INT, 1, 1, MPI_COMM_WORLD);
        MPI_Send(words, WORDS, MPI_INT, 1, 2, MPI_COMM_WORLD);
    } else {
        while (!flag)
            MPI_Iprobe(0, POLLED, MPI_COMM_WORLD, &flag, MPI_STATUS_IGNORE);
        MPI_Recv(words, WORDS, MPI_INT, 0, 1, MPI_COMM_WORLD, MPI_STATUS_IGNORE);
        MPI_Recv(words, WORDS, MPI_INT, 0, 2, MPI_COMM_WORLD, MPI_STATUS_IGNORE);
        printf("received both\n");
    }
    MPI_Finalize();
    return 0;
}
