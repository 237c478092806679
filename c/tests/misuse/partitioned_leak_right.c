#include <mpi.h>
#include <stdio.h>

int main(int argc, char **argv)
{
    double parts[2] = {5, 6};
    int rank;
    MPI_Request request;

    MPI_Init(&argc, &argv);
    MPI_Comm_rank(MPI_COMM_WORLD, &rank);
    if (rank == 0)
        MPI_Psend_init(parts, 2, 1, MPI_DOUBLE, 1, 7, MPI_COMM_WORLD, MPI_INFO_NULL, &request); /* A */
    else
        MPI_Precv_init(parts, 2, 1, MPI_DOUBLE, 0, 7, MPI_COMM_WORLD, MPI_INFO_NULL, &request);
    MPI_Start(&request);
    if (rank == 0)
        MPI_Pready_range(0, 1, request);
    MPI_Wait(&request, MPI_STATUS_IGNORE);
    printf("rank %d has %d\n", rank, (int)parts[1]);
    MPI_Request_free(&request);
    MPI_Finalize();
    return 0;
}
