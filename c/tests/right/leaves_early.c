#include <mpi.h>
#include <stdio.h>

/* One rank ends without MPI_Finalize, or by MPI_Abort; nobody waits for it at the end. */
int main(int argc, char **argv)
{
    int rank, sum;

    MPI_Init(&argc, &argv);
    MPI_Comm_rank(MPI_COMM_WORLD, &rank);
    MPI_Allreduce(&rank, &sum, 1, MPI_INT, MPI_SUM, MPI_COMM_WORLD);
    if (rank == 2)
        return 0;
    MPI_Finalize();
    printf("%d\n", sum);
    return 0;
}
