#include <mpi.h>
#include <stdio.h>

/* Some ranks share the factor first, others sum first. */
int main(int argc, char **argv)
{
    int rank, factor = 0, sum = 0;

    MPI_Init(&argc, &argv);
    MPI_Comm_rank(MPI_COMM_WORLD, &rank);
    if (rank == 0)
        factor = 3;
#ifdef RIGHT
    MPI_Bcast(&factor, 1, MPI_INT, 0, MPI_COMM_WORLD);
    MPI_Reduce(&rank, &sum, 1, MPI_INT, MPI_SUM, 0, MPI_COMM_WORLD);
#else
    if (rank % 2 == 0) {
        MPI_Bcast(&factor, 1, MPI_INT, 0, MPI_COMM_WORLD);
        MPI_Reduce(&rank, &sum, 1, MPI_INT, MPI_SUM, 0, MPI_COMM_WORLD);
    } else {
        MPI_Reduce(&rank, &sum, 1, MPI_INT, MPI_SUM, 0, MPI_COMM_WORLD);
        MPI_Bcast(&factor, 1, MPI_INT, 0, MPI_COMM_WORLD);
    }
#endif
    if (rank == 0)
        printf("%d times %d\n", factor, sum);
    MPI_Finalize();
    return 0;
}
