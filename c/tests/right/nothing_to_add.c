#include <mpi.h>
#include <stdio.h>

/* Rank 0 has nothing to add, so it leaves the reduction out, though it is its root. */

static int add_up(int mine, int *sum)
{
    return MPI_Reduce(&mine, sum, 1, MPI_INT, MPI_SUM, 0, MPI_COMM_WORLD);
}

int main(int argc, char **argv)
{
    int rank, sum = 0;

    MPI_Init(&argc, &argv);
    MPI_Comm_rank(MPI_COMM_WORLD, &rank);
#ifdef RIGHT
    int failed = add_up(rank, &sum);
#else
    int failed = rank && add_up(rank, &sum);
#endif
    if (rank == 0)
        printf("sum %d\n", sum);
    MPI_Finalize();
    return failed;
}
