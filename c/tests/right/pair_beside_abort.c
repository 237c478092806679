#include <mpi.h>
#include <stdio.h>

/* Ranks 0 and 1 call collectives in different orders, while rank 2 aborts. */
int main(int argc, char **argv)
{
    int rank, x = 1, sum = 0;
    MPI_Comm pair;

    MPI_Init(&argc, &argv);
    MPI_Comm_rank(MPI_COMM_WORLD, &rank);
    MPI_Comm_split(MPI_COMM_WORLD, rank < 2, 0, &pair);
    if (rank == 2)
        MPI_Abort(MPI_COMM_WORLD, 5);
    if (rank < 2) {
#ifndef RIGHT
        if (rank == 1) {
            MPI_Reduce(&x, &sum, 1, MPI_INT, MPI_SUM, 0, pair);
            MPI_Bcast(&x, 1, MPI_INT, 0, pair);
        } else
#endif
        {
            MPI_Bcast(&x, 1, MPI_INT, 0, pair);
            MPI_Reduce(&x, &sum, 1, MPI_INT, MPI_SUM, 0, pair);
        }
    }
    MPI_Comm_free(&pair);
    puts("end");
    MPI_Finalize();
    return 0;
}
