#include <mpi.h>
#include <stdio.h>

int main(int argc, char **argv)
{
    int rank;
    int numbers[4] = {1, 2, 3, 4};

    MPI_Init(&argc, &argv);
    MPI_Comm_rank(MPI_COMM_WORLD, &rank);
    MPI_Bcast(numbers, rank == 0 ? 4 : 2, MPI_INT, 0, MPI_COMM_WORLD); /* A */
    printf("rank %d has %d\n", rank, numbers[3]);
    MPI_Finalize();
    return 0;
}
