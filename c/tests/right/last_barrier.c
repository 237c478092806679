/* last_barrier.c: ranks poll until all have called MPI_Ibarrier. Wrong: a rank without work doesn't call it. */
#include <mpi.h>
#include <stdio.h>

int main(int argc, char **argv)
{
    int rank, done = 0;
    MPI_Request request;

    MPI_Init(&argc, &argv);
    MPI_Comm_rank(MPI_COMM_WORLD, &rank);
#ifndef RIGHT
    if (rank == 1) {
        MPI_Finalize();
        return 0;
    }
#endif
    MPI_Ibarrier(MPI_COMM_WORLD, &request);
    while (!done)
        MPI_Test(&request, &done, MPI_STATUS_IGNORE);
    printf("rank %d is through\n", rank);
    MPI_Finalize();
    return 0;
}
