#include <mpi.h>
#include <stdio.h>

int main(int argc, char **argv)
{
    int rank;
    int sum = 0;

    MPI_Init(&argc, &argv);
    MPI_Comm_rank(MPI_COMM_WORLD, &rank);
    if (rank == 0)
        MPI_Reduce(&rank, &sum, 1, MPI_INT, MPI_SUM, 0, MPI_COMM_WORLD); /* A */
    else
        MPI_Gather(&rank, 1, MPI_INT, &sum, 1, MPI_INT, 0, MPI_COMM_WORLD); /* B */
    if (rank == 0)
        printf("rank 0 has %d\n", sum);
    MPI_Finalize();
    return 0;
}
