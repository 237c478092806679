#include <mpi.h>
#include <stdio.h>

int main(int argc, char **argv)
{
    int rank;
    int number = 1, twice = 0;
    MPI_Request request;

    MPI_Init(&argc, &argv);
    MPI_Comm_rank(MPI_COMM_WORLD, &rank);
    if (rank == 0) {
        MPI_Send(&number, 1, MPI_INT, 1, 7, MPI_COMM_WORLD);
    } else {
        MPI_Irecv(&number, 1, MPI_INT, 0, 7, MPI_COMM_WORLD, &request); /* A */
        twice = 2 * number; /* B */
        MPI_Wait(&request, MPI_STATUS_IGNORE);
    }
    printf("rank %d has %d\n", rank, twice);
    MPI_Finalize();
    return 0;
}
