/* half_splits.c: the even ranks want a communicator of their own. Wrong: only they call MPI_Comm_split. */
#include <mpi.h>
#include <stdio.h>

int main(int argc, char **argv)
{
    int rank, sum = 0;
    MPI_Comm evens = MPI_COMM_NULL;

    MPI_Init(&argc, &argv);
    MPI_Comm_rank(MPI_COMM_WORLD, &rank);
#ifdef RIGHT
    MPI_Comm_split(MPI_COMM_WORLD, rank % 2 == 0 ? 0 : MPI_UNDEFINED, rank, &evens);
    if (evens != MPI_COMM_NULL) {
#else
    if (rank % 2 == 0) {
        MPI_Comm_split(MPI_COMM_WORLD, 0, rank, &evens);
#endif
        MPI_Allreduce(&rank, &sum, 1, MPI_INT, MPI_SUM, evens);
        printf("rank %d: %d\n", rank, sum);
        MPI_Comm_free(&evens);
    }
    MPI_Barrier(MPI_COMM_WORLD);
    MPI_Finalize();
    return 0;
}
