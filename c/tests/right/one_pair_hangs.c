/* Rank 2 gives rank 0 its part, and is done. Rank 0 gives rank 1 the two halves of it, which asks for the second one first. */
#include <mpi.h>
#include <stdio.h>

#ifndef WORDS
#define WORDS 8
#endif

enum { PART, FIRST, SECOND };

static int part[WORDS];

int main(int argc, char **argv)
{
    int rank, there = 0;
    MPI_Init(&argc, &argv);
    MPI_Comm_rank(MPI_COMM_WORLD, &rank);
    if (rank == 2) {
        for (int i = 0; i < WORDS; i++)
            part[i] = i;
        MPI_Send(part, WORDS, MPI_INT, 0, PART, MPI_COMM_WORLD);
    } else if (rank == 0) {
        MPI_Recv(part, WORDS, MPI_INT, 2, PART, MPI_COMM_WORLD, MPI_STATUS_IGNORE);
        MPI_Send(part, WORDS / 2, MPI_INT, 1, FIRST, MPI_COMM_WORLD);
        MPI_Send(part + WORDS / 2, WORDS / 2, MPI_INT, 1, SECOND, MPI_COMM_WORLD);
    } else {
        while (!there)
            MPI_Iprobe(0, SECOND, MPI_COMM_WORLD, &there, MPI_STATUS_IGNORE);
        MPI_Recv(part + WORDS / 2, WORDS / 2, MPI_INT, 0, SECOND, MPI_COMM_WORLD, MPI_STATUS_IGNORE);
        MPI_Recv(part, WORDS / 2, MPI_INT, 0, FIRST, MPI_COMM_WORLD, MPI_STATUS_IGNORE);
        printf("the last word is %d\n", part[WORDS - 1]);
    }
    MPI_Finalize();
    return 0;
}
