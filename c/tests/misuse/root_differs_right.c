#include <mpi.h>
#include <stdio.h>

int main(int argc, char **argv)
{
    int rank;
    int number = 0;

    MPI_Init(&argc, &argv);
    MPI_Comm_rank(MPI_COMM_WORLD, &rank);
    if (rank == 0)
        number = 5;
    MPI_Bcast(&number, 1, MPI_INT, 0, MPI_COMM_WORLD); /* A */
    MPI_Barrier(MPI_COMM_WORLD); /* B */
    printf("rank %d has %d\n", rank, number);
    MPI_Finalize();
    return 0;
}
