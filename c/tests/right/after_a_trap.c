/* Rank 0 traps: what was sent to it is never received. */
#include <mpi.h>

int main(int argc, char **argv)
{
    int rank, word = 1;

    MPI_Init(&argc, &argv);
    MPI_Comm_rank(MPI_COMM_WORLD, &rank);
    if (rank == 1)
        MPI_Send(&word, 1, MPI_INT, 0, 5, MPI_COMM_WORLD);
    else
        MPI_Recv(&word, 1, MPI_INT, 7, 5, MPI_COMM_WORLD, MPI_STATUS_IGNORE);
    MPI_Finalize();
    return 0;
}
