/* Rank 0 takes the first answer, and ends all ranks with code 300 if it isn't rank 1's: a status has the lowest eight bits, 44. */
#include <mpi.h>
#include <stdio.h>

int main(int argc, char **argv)
{
    int rank, answer;

    MPI_Init(&argc, &argv);
    MPI_Comm_rank(MPI_COMM_WORLD, &rank);
    if (rank == 0) {
        MPI_Recv(&answer, 1, MPI_INT, MPI_ANY_SOURCE, 0, MPI_COMM_WORLD, MPI_STATUS_IGNORE);
        if (answer != 1)
            MPI_Abort(MPI_COMM_WORLD, 300);
        MPI_Recv(&answer, 1, MPI_INT, MPI_ANY_SOURCE, 0, MPI_COMM_WORLD, MPI_STATUS_IGNORE);
    } else
        MPI_Ssend(&rank, 1, MPI_INT, 0, 0, MPI_COMM_WORLD);
    MPI_Barrier(MPI_COMM_WORLD);
    MPI_Finalize();
    return 0;
}
