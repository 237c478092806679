/* Each rank tests its own send until that is complete, and only then receives the other's. */
#include <mpi.h>
#include <stdio.h>

#ifndef WORDS
#define WORDS 1
#endif

static int mine[WORDS], theirs[WORDS];

int main(int argc, char **argv)
{
    int rank, flag = 0;
    MPI_Request request;
    MPI_Init(&argc, &argv);
    MPI_Comm_rank(MPI_COMM_WORLD, &rank);
    mine[0] = 10 * rank;
    MPI_Isend(mine, WORDS, MPI_INT, 1 - rank, 1, MPI_COMM_WORLD, &request);
    while (!flag)
        MPI_Test(&request, &flag, MPI_STATUS_IGNORE);
    MPI_Recv(theirs, WORDS, MPI_INT, 1 - rank, 1, MPI_COMM_WORLD, MPI_STATUS_IGNORE);
    printf("rank %d got %d\n", rank, theirs[0]);
    MPI_Finalize();
    return 0;
}
