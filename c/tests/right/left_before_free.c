/* left_before_free.c: Wrong: rank 0 frees the communicator without the gather that the others begin. */
#include <mpi.h>
#include <stdio.h>

int main(int argc, char **argv)
{
    int rank, all[8] = {0};
    MPI_Comm copy;
    MPI_Request request = MPI_REQUEST_NULL;

    MPI_Init(&argc, &argv);
    MPI_Comm_rank(MPI_COMM_WORLD, &rank);
    MPI_Comm_dup(MPI_COMM_WORLD, &copy);
#ifndef RIGHT
    if (rank == WHO)
#endif
        MPI_Igather(&rank, 1, MPI_INT, all, 1, MPI_INT, 0, copy, &request);
    MPI_Wait(&request, MPI_STATUS_IGNORE);
    MPI_Comm_free(&copy);
    printf("end\n");
    MPI_Finalize();
    return 0;
}
