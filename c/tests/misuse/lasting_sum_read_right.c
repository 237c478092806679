#include <mpi.h>
#include <stdio.h>

int main(int argc, char **argv)
{
    int rank;
    int sum = 0;
    MPI_Request request;

    MPI_Init(&argc, &argv);
    MPI_Comm_rank(MPI_COMM_WORLD, &rank);
    MPI_Allreduce_init(&rank, &sum, 1, MPI_INT, MPI_SUM, MPI_COMM_WORLD, MPI_INFO_NULL, &request); /* A */
    MPI_Start(&request);
    MPI_Wait(&request, MPI_STATUS_IGNORE);
    printf("rank %d has %d\n", rank, sum);
    MPI_Request_free(&request);
    MPI_Finalize();
    return 0;
}
