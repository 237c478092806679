#include <mpi.h>
#include <stdio.h>

/* Which collective a rank calls depends on a number that isn't the same on all ranks. */
int main(int argc, char **argv)
{
    int rank, error, worst = 0;

    MPI_Init(&argc, &argv);
    MPI_Comm_rank(MPI_COMM_WORLD, &rank);
    MPI_Barrier(MPI_COMM_WORLD);
    error = 10 - rank;
#ifdef RIGHT
    error = 10;
#endif
    if (error > 9)
        MPI_Allreduce(&error, &worst, 1, MPI_INT, MPI_MAX, MPI_COMM_WORLD);
    else
        MPI_Reduce(&error, &worst, 1, MPI_INT, MPI_MAX, 0, MPI_COMM_WORLD);
    if (rank == 0)
        printf("worst %d\n", worst);
    MPI_Finalize();
    return 0;
}
