#include <mpi.h>
#include <stdio.h>

int main(int argc, char **argv)
{
    int rank;
    int numbers[4] = {1, 2, 3, 4};
    MPI_Request requests[2];

    MPI_Init(&argc, &argv);
    MPI_Comm_rank(MPI_COMM_WORLD, &rank);
    if (rank == 0) {
        MPI_Send(numbers, 2, MPI_INT, 1, 7, MPI_COMM_WORLD);
        MPI_Send(numbers + 2, 2, MPI_INT, 1, 8, MPI_COMM_WORLD);
    } else {
        MPI_Irecv(numbers, 2, MPI_INT, 0, 7, MPI_COMM_WORLD, requests); /* A */
        MPI_Irecv(numbers + 1, 2, MPI_INT, 0, 8, MPI_COMM_WORLD, requests + 1); /* B */
        MPI_Waitall(2, requests, MPI_STATUSES_IGNORE);
    }
    printf("rank %d has %d\n", rank, numbers[1]);
    MPI_Finalize();
    return 0;
}
