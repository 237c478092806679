/* two_of_four_wait.c: pairs of ranks exchange a number. In the first pair both receive first; in the second one sends first.
   Rank 2 also sends one message to rank 0 and two to rank 1 that nobody receives. */
#include <mpi.h>

int main(int argc, char **argv)
{
    int rank, got;

    MPI_Init(&argc, &argv);
    MPI_Comm_rank(MPI_COMM_WORLD, &rank);
    int partner = rank ^ 1;
    if (rank == 2) {
        MPI_Send(&rank, 1, MPI_INT, 0, 8, MPI_COMM_WORLD);
        MPI_Send(&rank, 1, MPI_INT, 1, 8, MPI_COMM_WORLD);
        MPI_Send(&rank, 1, MPI_INT, 1, 9, MPI_COMM_WORLD);
        MPI_Send(&rank, 1, MPI_INT, partner, 7, MPI_COMM_WORLD);
    }
    MPI_Recv(&got, 1, MPI_INT, partner, 7, MPI_COMM_WORLD, MPI_STATUS_IGNORE);
    if (rank != 2)
        MPI_Send(&rank, 1, MPI_INT, partner, 7, MPI_COMM_WORLD);
    MPI_Finalize();
    return 0;
}
