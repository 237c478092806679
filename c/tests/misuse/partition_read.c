#include <mpi.h>
#include <stdio.h>

int main(int argc, char **argv)
{
    double parts[4] = {1, 2, 3, 4};
    int rank;
    int there = 0;
    MPI_Request request;

    MPI_Init(&argc, &argv);
    MPI_Comm_rank(MPI_COMM_WORLD, &rank);
    if (rank == 0) {
        MPI_Psend_init(parts, 4, 1, MPI_DOUBLE, 1, 7, MPI_COMM_WORLD, MPI_INFO_NULL, &request);
        MPI_Start(&request);
        MPI_Pready_range(0, 3, request);
    } else {
        MPI_Precv_init(parts, 4, 1, MPI_DOUBLE, 0, 7, MPI_COMM_WORLD, MPI_INFO_NULL, &request); /* A */
        MPI_Start(&request);
        while (!there)
            MPI_Parrived(request, 2, &there);
        printf("partition 2 has %d\n", (int)parts[1]); /* B */
    }
    MPI_Wait(&request, MPI_STATUS_IGNORE);
    MPI_Request_free(&request);
    MPI_Finalize();
    return 0;
}
