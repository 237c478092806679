#include <mpi.h>
#include <stdio.h>

int main(int argc, char **argv)
{
    int rank;
    int numbers[4] = {1, 2, 3, 4};

    MPI_Init(&argc, &argv);
    MPI_Comm_rank(MPI_COMM_WORLD, &rank);
    if (rank == 0)
        MPI_Send(numbers, 4, MPI_INT, 1, 7, MPI_COMM_WORLD); /* A */
    else
        MPI_Recv(numbers, 4, MPI_INT, 0, 7, MPI_COMM_WORLD, MPI_STATUS_IGNORE); /* B */
    printf("rank %d has %d\n", rank, numbers[3]);
    MPI_Finalize();
    return 0;
}
