#include <mpi.h>
#include <stdio.h>

int main(int argc, char **argv)
{
    int rank;
    int size = 0;
    MPI_Comm mine;

    MPI_Init(&argc, &argv);
    MPI_Comm_rank(MPI_COMM_WORLD, &rank);
    MPI_Comm_split(MPI_COMM_WORLD, rank, 0, &mine); /* A */
    MPI_Comm_size(mine, &size);
    printf("rank %d is among %d\n", rank, size);
    MPI_Comm_free(&mine);
    MPI_Finalize(); /* B */
    return 0;
}
