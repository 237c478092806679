/* Rank 0 reads a tag and waits for a message with it; rank 1 sends one with tag 1. */
#include <mpi.h>
#include <stdio.h>

int main(int argc, char *argv[])
{
    int rank, tag = 0, value = 7;

    MPI_Init(&argc, &argv);
    MPI_Comm_rank(MPI_COMM_WORLD, &rank);
    if (rank == 0) {
        scanf("%d", &tag);
        MPI_Recv(&value, 1, MPI_INT, 1, tag, MPI_COMM_WORLD, MPI_STATUS_IGNORE);
    } else {
        MPI_Send(&value, 1, MPI_INT, 0, 1, MPI_COMM_WORLD);
    }
    MPI_Finalize();
    return 0;
}
