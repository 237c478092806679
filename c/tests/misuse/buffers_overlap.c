#include <mpi.h>
#include <stdio.h>

int main(int argc, char **argv)
{
    int rank;
    int numbers[3] = {1, 2, 3};

    MPI_Init(&argc, &argv);
    MPI_Comm_rank(MPI_COMM_WORLD, &rank);
    MPI_Sendrecv(numbers, 2, MPI_INT, 1 - rank, 7, numbers + 1, 2, MPI_INT, 1 - rank, 7, MPI_COMM_WORLD, /* A */
                 MPI_STATUS_IGNORE);
    printf("rank %d has %d\n", rank, numbers[2]);
    MPI_Finalize();
    return 0;
}
