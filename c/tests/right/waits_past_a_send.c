/* Rank 1 waits for the second message first, by MPI_Wait or by MPI_Waitany; or for both in any order. */
#include <mpi.h>
#include <stdio.h>

#ifndef WORDS
#define WORDS 1
#endif

enum { WAIT, WAITANY, WAITANY_OF_BOTH };

static int words[2][WORDS];

int main(int argc, char **argv)
{
    int rank, which;
    MPI_Request requests[2];
    MPI_Init(&argc, &argv);
    MPI_Comm_rank(MPI_COMM_WORLD, &rank);
    if (rank == 0) {
        MPI_Send(words[0], WORDS, MPI_INT, 1, 1, MPI_COMM_WORLD);
        MPI_Send(words[1], WORDS, MPI_INT, 1, 2, MPI_COMM_WORLD);
    } else {
        MPI_Irecv(words[1], WORDS, MPI_INT, 0, 2, MPI_COMM_WORLD, &requests[0]);
        if (HOW == WAIT)
            MPI_Wait(&requests[0], MPI_STATUS_IGNORE);
        if (HOW == WAITANY)
            MPI_Waitany(1, requests, &which, MPI_STATUS_IGNORE);
        MPI_Irecv(words[0], WORDS, MPI_INT, 0, 1, MPI_COMM_WORLD, &requests[1]);
        while (MPI_Waitany(2, requests, &which, MPI_STATUS_IGNORE), which != MPI_UNDEFINED)
            ;
        printf("received both\n");
    }
    MPI_Finalize();
    return 0;
}
