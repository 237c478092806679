#include <mpi.h>
#include <stdio.h>

int main(int argc, char **argv)
{
    int rank;
    float numbers[2] = {1, 2};

    MPI_Init(&argc, &argv);
    MPI_Comm_rank(MPI_COMM_WORLD, &rank);
    MPI_Bcast(numbers, 2, MPI_FLOAT, 0, MPI_COMM_WORLD); /* A */
    printf("rank %d has %g\n", rank, numbers[1]);
    MPI_Finalize();
    return 0;
}
