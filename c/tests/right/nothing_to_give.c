#include <mpi.h>
#include <stdio.h>

/* Rank 0 has nothing to give and nothing to get, since its count is 0. It calls the two in another order. */
int main(int argc, char **argv)
{
    int rank, size, counts[8], at[8], all[32] = {0}, mine[8] = {0};

    MPI_Init(&argc, &argv);
    MPI_Comm_rank(MPI_COMM_WORLD, &rank);
    MPI_Comm_size(MPI_COMM_WORLD, &size);
    for (int i = 0, next = 0; i < size; i++) {
        counts[i] = i;
        at[i] = next;
        next += i;
    }
    for (int i = 0; i < rank; i++)
        mine[i] = rank;
#ifndef RIGHT
    if (rank == 0) {
        MPI_Scatterv(all, counts, at, MPI_INT, mine, counts[rank], MPI_INT, 1, MPI_COMM_WORLD);
        MPI_Gatherv(mine, counts[rank], MPI_INT, all, counts, at, MPI_INT, 1, MPI_COMM_WORLD);
    } else
#endif
    {
        MPI_Gatherv(mine, counts[rank], MPI_INT, all, counts, at, MPI_INT, 1, MPI_COMM_WORLD);
        MPI_Scatterv(all, counts, at, MPI_INT, mine, counts[rank], MPI_INT, 1, MPI_COMM_WORLD);
    }
    printf("%d: %d\n", rank, mine[0]);
    MPI_Finalize();
    return 0;
}
