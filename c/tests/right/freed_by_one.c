#include <mpi.h>
#include <stdio.h>

/* MPI_Comm_free is collective too, but only rank 0 calls it. */
int main(int argc, char **argv)
{
    int rank;
    MPI_Comm twin;

    MPI_Init(&argc, &argv);
    MPI_Comm_rank(MPI_COMM_WORLD, &rank);
    MPI_Comm_dup(MPI_COMM_WORLD, &twin);
    MPI_Barrier(twin);
#ifndef RIGHT
    if (rank == 0)
#endif
        MPI_Comm_free(&twin);
    puts("end");
    MPI_Finalize();
    return 0;
}
