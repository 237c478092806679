/* Ranks 2 and 3 swap tables if rank 0 was the first to call rank 2. Both send before they receive, so each send has to copy a
   table of 160,000 bytes: MPICH hangs in a run in which rank 0 is first, and ends in the others. */
#include <mpi.h>
#include <stdio.h>

#define ENTRIES 40000

enum { CALL = 1, GO, ORDER, TABLE };

static int mine[ENTRIES], theirs[ENTRIES];

static void swap_with(int other)
{
    MPI_Send(mine, ENTRIES, MPI_INT, other, TABLE, MPI_COMM_WORLD);
    MPI_Recv(theirs, ENTRIES, MPI_INT, other, TABLE, MPI_COMM_WORLD, MPI_STATUS_IGNORE);
}

int main(int argc, char **argv)
{
    int rank, word = 7, first;
    MPI_Status status;

    MPI_Init(&argc, &argv);
    MPI_Comm_rank(MPI_COMM_WORLD, &rank);
    if (rank == 0) {
        MPI_Send(&word, 1, MPI_INT, 1, CALL, MPI_COMM_WORLD);
        MPI_Send(&word, 1, MPI_INT, 2, CALL, MPI_COMM_WORLD);
    } else if (rank == 1) {
        MPI_Recv(&word, 1, MPI_INT, 2, GO, MPI_COMM_WORLD, MPI_STATUS_IGNORE);
        MPI_Recv(&word, 1, MPI_INT, 0, CALL, MPI_COMM_WORLD, MPI_STATUS_IGNORE);
    } else if (rank == 2) {
        MPI_Recv(&word, 1, MPI_INT, MPI_ANY_SOURCE, CALL, MPI_COMM_WORLD, &status);
        first = status.MPI_SOURCE;
        MPI_Send(&word, 1, MPI_INT, 1, GO, MPI_COMM_WORLD);
        MPI_Recv(&word, 1, MPI_INT, first == 0 ? 3 : 0, CALL, MPI_COMM_WORLD, MPI_STATUS_IGNORE);
        MPI_Send(&first, 1, MPI_INT, 3, ORDER, MPI_COMM_WORLD);
        if (first == 0)
            swap_with(3);
    } else {
        MPI_Send(&word, 1, MPI_INT, 2, CALL, MPI_COMM_WORLD);
        MPI_Recv(&first, 1, MPI_INT, 2, ORDER, MPI_COMM_WORLD, MPI_STATUS_IGNORE);
        if (first == 0)
            swap_with(2);
    }
    MPI_Finalize();
    return 0;
}
