#include <mpi.h>
#include <stdio.h>

/* A sum along a line of ranks, without a test for its left end: rank 0 receives from rank -1. */
int main(int argc, char **argv)
{
    int rank, size, x = 0;

    MPI_Init(&argc, &argv);
    MPI_Comm_rank(MPI_COMM_WORLD, &rank);
    MPI_Comm_size(MPI_COMM_WORLD, &size);
#ifdef RIGHT
    if (rank > 0)
#endif
        MPI_Recv(&x, 1, MPI_INT, rank - 1, 0, MPI_COMM_WORLD, MPI_STATUS_IGNORE);
    x += rank;
    if (rank < size - 1)
        MPI_Send(&x, 1, MPI_INT, rank + 1, 0, MPI_COMM_WORLD);
    printf("%d\n", x);
    MPI_Finalize();
    return 0;
}
