#include <mpi.h>
#include <stdio.h>

int main(int argc, char **argv)
{
    int rank, word = 0;

    MPI_Init(&argc, &argv);
    MPI_Comm_rank(MPI_COMM_WORLD, &rank);
    if (rank == 0)
        MPI_Bcast(&word, 1, MPI_INT, 1, MPI_COMM_WORLD); /* A */
    else
        MPI_Bcast(&word, 1, MPI_INT, 1, MPI_COMM_WORLD); /* B */
    printf("rank %d is through\n", rank);
    MPI_Finalize();
    return 0;
}
