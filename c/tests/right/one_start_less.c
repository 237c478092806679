#include <mpi.h>
#include <stdio.h>

/* A persistent broadcast, which rank 0 starts once less than rank 1, its root. */
int main(int argc, char **argv)
{
    int rank, x = 0;
    MPI_Request request;

    MPI_Init(&argc, &argv);
    MPI_Comm_rank(MPI_COMM_WORLD, &rank);
    MPI_Bcast_init(&x, 1, MPI_INT, 1, MPI_COMM_WORLD, MPI_INFO_NULL, &request);
    for (int i = 0; i < 3; i++) {
#ifndef RIGHT
        if (rank == 0 && i == 2)
            break;
#endif
        if (rank == 1)
            x = i + 1;
        MPI_Start(&request);
        MPI_Wait(&request, MPI_STATUS_IGNORE);
    }
    MPI_Request_free(&request);
    printf("x is %d\n", x);
    MPI_Finalize();
    return 0;
}
