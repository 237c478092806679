#include <mpi.h>
#include <stdio.h>

/* Only its group calls MPI_Comm_create_group, so it isn't missing on rank 2. The mistake is inside the pair. */
int main(int argc, char **argv)
{
    int rank, first[2] = {0, 1}, x = 3, sum = 0;
    MPI_Group all, two;
    MPI_Comm pair;

    MPI_Init(&argc, &argv);
    MPI_Comm_rank(MPI_COMM_WORLD, &rank);
    MPI_Comm_group(MPI_COMM_WORLD, &all);
    MPI_Group_incl(all, 2, first, &two);
    if (rank < 2) {
        MPI_Comm_create_group(MPI_COMM_WORLD, two, 5, &pair);
#ifndef RIGHT
        if (rank == 1) {
            MPI_Reduce(&x, &sum, 1, MPI_INT, MPI_SUM, 0, pair);
            MPI_Bcast(&x, 1, MPI_INT, 0, pair);
        } else
#endif
        {
            MPI_Bcast(&x, 1, MPI_INT, 0, pair);
            MPI_Reduce(&x, &sum, 1, MPI_INT, MPI_SUM, 0, pair);
        }
        MPI_Comm_free(&pair);
    }
    MPI_Group_free(&two);
    MPI_Group_free(&all);
    MPI_Barrier(MPI_COMM_WORLD);
    if (rank == 0)
        printf("sum %d\n", sum);
    MPI_Finalize();
    return 0;
}
