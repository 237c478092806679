#include <mpi.h>
#include <stdio.h>

int main(int argc, char **argv)
{
    int rank, word = 0;

    MPI_Init(&argc, &argv);
    MPI_Comm_rank(MPI_COMM_WORLD, &rank);
    if (rank == 1)
        MPI_Bcast(&word, 1, MPI_INT, 0, MPI_COMM_WORLD); /* A */
    printf("rank %d is through\n", rank);
    MPI_Finalize();
    return 0;
}
