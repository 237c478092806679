#include <mpi.h>
#include <stdio.h>

int main(int argc, char **argv)
{
    int rank;
    int number = 0;
    MPI_Request request;

    MPI_Init(&argc, &argv);
    MPI_Comm_rank(MPI_COMM_WORLD, &rank);
    MPI_Bcast_init(&number, 1, MPI_INT, 0, MPI_COMM_WORLD, MPI_INFO_NULL, &request); /* A */
    for (int i = 0; i < 2; i++) {
        MPI_Start(&request);
        if (rank == 0)
            number += 3; /* B */
        MPI_Wait(&request, MPI_STATUS_IGNORE);
    }
    printf("rank %d has %d\n", rank, number);
    MPI_Request_free(&request);
    MPI_Finalize();
    return 0;
}
