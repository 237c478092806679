/* gone_before.c: rank 1 ends without MPI_Finalize, and without the broadcast. */
#include <mpi.h>

int main(int argc, char **argv)
{
    int rank, x = 0;

    MPI_Init(&argc, &argv);
    MPI_Comm_rank(MPI_COMM_WORLD, &rank);
    if (rank == 1)
        return 0;
    MPI_Bcast(&x, 1, MPI_INT, ROOT, MPI_COMM_WORLD);
    MPI_Finalize();
    return 0;
}
