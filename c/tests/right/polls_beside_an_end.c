/* Ranks 0 and 1 hang if rank 0's first send waits. Rank 2 has nothing to do with that: it ends, traps, aborts, or waits in vain. */
#include <mpi.h>
#include <stdlib.h>

enum { END, TRAP, ABORT, WAIT };

int main(int argc, char **argv)
{
    int rank, word = 0, flag = 0;
    MPI_Init(&argc, &argv);
    MPI_Comm_rank(MPI_COMM_WORLD, &rank);
    if (rank == 0) {
        MPI_Send(&word, 1, MPI_INT, 1, 1, MPI_COMM_WORLD);
        MPI_Send(&word, 1, MPI_INT, 1, 2, MPI_COMM_WORLD);
    } else if (rank == 1) {
        while (!flag)
            MPI_Iprobe(0, 2, MPI_COMM_WORLD, &flag, MPI_STATUS_IGNORE);
        MPI_Recv(&word, 1, MPI_INT, 0, 1, MPI_COMM_WORLD, MPI_STATUS_IGNORE);
        MPI_Recv(&word, 1, MPI_INT, 0, 2, MPI_COMM_WORLD, MPI_STATUS_IGNORE);
    } else {
        if (HOW == TRAP)
            abort();
        if (HOW == ABORT)
            MPI_Abort(MPI_COMM_WORLD, 3);
        if (HOW == WAIT)
            MPI_Recv(&word, 1, MPI_INT, 0, 3, MPI_COMM_WORLD, MPI_STATUS_IGNORE);
    }
    MPI_Finalize();
    return 0;
}
