#include <mpi.h>
#include <stdio.h>

int main(int argc, char **argv)
{
    int rank;
    double numbers[600] = {0};
    MPI_Request request;

    MPI_Init(&argc, &argv);
    MPI_Comm_rank(MPI_COMM_WORLD, &rank);
    if (rank == 0) {
        MPI_Send(numbers, 600, MPI_DOUBLE, 1, 7, MPI_COMM_WORLD); /* A */
    } else {
        MPI_Irecv(numbers, 60, MPI_DOUBLE, 0, 7, MPI_COMM_WORLD, &request); /* B */
        MPI_Wait(&request, MPI_STATUS_IGNORE); /* C */
    }
    printf("rank %d has %g\n", rank, numbers[599]);
    MPI_Finalize();
    return 0;
}
