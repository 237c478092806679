#include <mpi.h>
#include <stdio.h>

/* Two pairs of neighbors in one graph never hear of each other, and call different collectives. */
int main(int argc, char **argv)
{
    int rank, other, out, in = -1;
    MPI_Comm pairs;

    MPI_Init(&argc, &argv);
    MPI_Comm_rank(MPI_COMM_WORLD, &rank);
    other = rank ^ 1;
    MPI_Dist_graph_create_adjacent(MPI_COMM_WORLD, 1, &other, MPI_UNWEIGHTED, 1, &other, MPI_UNWEIGHTED, MPI_INFO_NULL, 0, &pairs);
    out = 10 * rank;
#ifndef RIGHT
    if (rank > 1)
        MPI_Neighbor_alltoall(&out, 1, MPI_INT, &in, 1, MPI_INT, pairs);
    else
#endif
        MPI_Neighbor_allgather(&out, 1, MPI_INT, &in, 1, MPI_INT, pairs);
    printf("%d: %d\n", rank, in);
    MPI_Comm_free(&pairs);
    MPI_Finalize();
    return 0;
}
