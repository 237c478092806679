#include <mpi.h>
#include <stdio.h>

/* Persistent collectives may be started in any order, but all ranks have to make them in the same one. */
int main(int argc, char **argv)
{
    int rank, n = 0, sum = 0;
    MPI_Request both[2];

    MPI_Init(&argc, &argv);
    MPI_Comm_rank(MPI_COMM_WORLD, &rank);
#ifndef RIGHT
    if (rank == 1) {
        MPI_Allreduce_init(&rank, &sum, 1, MPI_INT, MPI_SUM, MPI_COMM_WORLD, MPI_INFO_NULL, &both[1]);
        MPI_Bcast_init(&n, 1, MPI_INT, 0, MPI_COMM_WORLD, MPI_INFO_NULL, &both[0]);
    } else
#endif
    {
        MPI_Bcast_init(&n, 1, MPI_INT, 0, MPI_COMM_WORLD, MPI_INFO_NULL, &both[0]);
        MPI_Allreduce_init(&rank, &sum, 1, MPI_INT, MPI_SUM, MPI_COMM_WORLD, MPI_INFO_NULL, &both[1]);
    }
    for (int i = 0; i < 2; i++) {
        if (rank == 0)
            n = i + 7;
        MPI_Start(&both[rank % 2]);
        MPI_Start(&both[1 - rank % 2]);
        MPI_Waitall(2, both, MPI_STATUSES_IGNORE);
    }
    MPI_Request_free(&both[0]);
    MPI_Request_free(&both[1]);
    printf("%d %d\n", n, sum);
    MPI_Finalize();
    return 0;
}
