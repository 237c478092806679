/* loops_beside_a_race.c: three ranks race to send to rank 0, and the last rank loops for ever, with or without stores. */
#include <mpi.h>

static volatile int word;

int main(int argc, char **argv)
{
    int rank, got;

    MPI_Init(&argc, &argv);
    MPI_Comm_rank(MPI_COMM_WORLD, &rank);
    if (rank == 0) {
        for (int i = 0; i < 3; i++)
            MPI_Recv(&got, 1, MPI_INT, MPI_ANY_SOURCE, 0, MPI_COMM_WORLD, MPI_STATUS_IGNORE);
    } else if (rank < 4) {
        MPI_Send(&rank, 1, MPI_INT, 0, 0, MPI_COMM_WORLD);
    } else {
#ifdef STORES
        for (;;)
            word = rank;
#else
        for (;;)
            ;
#endif
    }
    MPI_Finalize();
    return 0;
}
