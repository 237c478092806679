/* waits_beside_a_poller.c: a farm whose last rank looks for an order to stop that rank 0 never sends, since it waits itself for
   a result of rank 1, which has none. */
#include <mpi.h>

int main(int argc, char **argv)
{
    int rank, result, told = 0;

    MPI_Init(&argc, &argv);
    MPI_Comm_rank(MPI_COMM_WORLD, &rank);
    if (rank == 0) {
        MPI_Recv(&result, 1, MPI_INT, 1, 3, MPI_COMM_WORLD, MPI_STATUS_IGNORE);
        MPI_Send(&result, 1, MPI_INT, 2, 4, MPI_COMM_WORLD);
    } else if (rank == 2) {
        while (!told)
            MPI_Iprobe(0, 4, MPI_COMM_WORLD, &told, MPI_STATUS_IGNORE);
        MPI_Recv(&result, 1, MPI_INT, 0, 4, MPI_COMM_WORLD, MPI_STATUS_IGNORE);
    }
    MPI_Finalize();
    return 0;
}
