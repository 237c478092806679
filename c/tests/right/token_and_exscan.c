#include <mpi.h>
#include <stdio.h>

/* Each rank receives a token before the scan, and hands it on after the scan. */
int main(int argc, char **argv)
{
    int rank, size, offset = 0, length, token = 0;

    MPI_Init(&argc, &argv);
    MPI_Comm_rank(MPI_COMM_WORLD, &rank);
    MPI_Comm_size(MPI_COMM_WORLD, &size);
    length = 2 * rank + 1;
#ifdef RIGHT
    MPI_Exscan(&length, &offset, 1, MPI_INT, MPI_SUM, MPI_COMM_WORLD);
#endif
    if (rank > 0)
        MPI_Recv(&token, 1, MPI_INT, rank - 1, 0, MPI_COMM_WORLD, MPI_STATUS_IGNORE);
#ifndef RIGHT
    MPI_Exscan(&length, &offset, 1, MPI_INT, MPI_SUM, MPI_COMM_WORLD);
#endif
    token += length;
    if (rank < size - 1)
        MPI_Send(&token, 1, MPI_INT, rank + 1, 0, MPI_COMM_WORLD);
    printf("%d: from %d to %d\n", rank, rank ? offset : 0, token);
    MPI_Finalize();
    return 0;
}
