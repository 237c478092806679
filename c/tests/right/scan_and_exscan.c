#include <mpi.h>
#include <stdio.h>

/* Rank 0 has nothing before it, so it calls the other one of the two. */
int main(int argc, char **argv)
{
    int rank, mine = 2, before = 0;

    MPI_Init(&argc, &argv);
    MPI_Comm_rank(MPI_COMM_WORLD, &rank);
#ifdef RIGHT
    MPI_Exscan(&mine, &before, 1, MPI_INT, MPI_SUM, MPI_COMM_WORLD);
#else
    if (rank == 0)
        MPI_Scan(&mine, &before, 1, MPI_INT, MPI_SUM, MPI_COMM_WORLD);
    else
        MPI_Exscan(&mine, &before, 1, MPI_INT, MPI_SUM, MPI_COMM_WORLD);
#endif
    if (rank)
        printf("%d before rank %d\n", before, rank);
    MPI_Finalize();
    return 0;
}
