#include <mpi.h>
#include <stdio.h>

int main(int argc, char **argv)
{
    int rank;
    int sum = 0;
    MPI_Comm copy;

    MPI_Init(&argc, &argv);
    MPI_Comm_rank(MPI_COMM_WORLD, &rank);
    MPI_Comm_dup(MPI_COMM_WORLD, &copy); /* A */
    MPI_Allreduce(&rank, &sum, 1, MPI_INT, MPI_SUM, copy);
    printf("rank %d has %d\n", rank, sum);
    MPI_Finalize(); /* B */
    return 0;
}
