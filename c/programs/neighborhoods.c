/* What the ranks of a grid send their neighbors, by all five calls; at a border nothing is received. In a dimension of two
   ranks that goes round, one rank is the neighbor on both sides: there MPICH 4.0.2 takes the two for each other in the calls
   with several counts, so these are left out.

   c/rvmc-cc -n 6 -o neighborhoods.image c/programs/neighborhoods.c && rvmc run < neighborhoods.image */
#include <mpi.h>
#include <stdio.h>

#define NEIGHBORS 4

static void show(const char *name, const int *got, int count)
{
    printf("%s:", name);
    for (int i = 0; i < count; i++)
        printf(" %d", got[i]);
    printf("\n");
}

static void clear(int *got)
{
    for (int i = 0; i < 4 * NEIGHBORS; i++)
        got[i] = -1;
}

static void exchange(MPI_Comm grid, int rank, int all)
{
    int mine[2 * NEIGHBORS], got[4 * NEIGHBORS], counts[NEIGHBORS], places[NEIGHBORS], ones[NEIGHBORS];
    MPI_Aint bytes[NEIGHBORS];
    MPI_Datatype types[NEIGHBORS];

    for (int i = 0; i < 2 * NEIGHBORS; i++)
        mine[i] = 100 * rank + i;
    for (int i = 0; i < NEIGHBORS; i++) {
        counts[i] = 1 + i % 2;
        places[i] = 2 * (NEIGHBORS - 1 - i);
        bytes[i] = (MPI_Aint)sizeof(int) * places[i];
        types[i] = MPI_INT;
        ones[i] = 1;
    }
    clear(got);
    MPI_Neighbor_allgather(mine, 2, MPI_INT, got, 2, MPI_INT, grid);
    show("allgather", got, 2 * NEIGHBORS);
    clear(got);
    MPI_Neighbor_allgatherv(mine, 1, MPI_INT, got, ones, places, MPI_INT, grid);
    show("allgatherv", got, 2 * NEIGHBORS);
    clear(got);
    MPI_Neighbor_alltoall(mine, 2, MPI_INT, got, 2, MPI_INT, grid);
    show("alltoall", got, 2 * NEIGHBORS);
    if (!all)
        return;
    clear(got);
    /* what goes to the one before is received by it from the one behind */
    for (int i = 0; i < NEIGHBORS; i++)
        ones[i] = 1 + (i + 1) % 2;
    MPI_Neighbor_alltoallv(mine, counts, places, MPI_INT, got, ones, places, MPI_INT, grid);
    show("alltoallv", got, 2 * NEIGHBORS);
    clear(got);
    MPI_Neighbor_alltoallw(mine, counts, bytes, types, got, ones, bytes, types, grid);
    show("alltoallw", got, 2 * NEIGHBORS);
}

int main(int argc, char *argv[])
{
    int rank, dims[2] = {3, 2}, open[2] = {0, 0}, ring[2] = {1, 0}, round[2] = {1, 1};
    MPI_Comm grid;

    MPI_Init(&argc, &argv);
    MPI_Cart_create(MPI_COMM_WORLD, 2, dims, open, 0, &grid);
    MPI_Comm_rank(grid, &rank);
    exchange(grid, rank, 1);
    MPI_Comm_free(&grid);
    MPI_Cart_create(MPI_COMM_WORLD, 2, dims, ring, 0, &grid);
    exchange(grid, rank, 1);
    MPI_Comm_free(&grid);
    MPI_Cart_create(MPI_COMM_WORLD, 2, dims, round, 0, &grid);
    exchange(grid, rank, 0);
    MPI_Comm_free(&grid);
    MPI_Finalize();
    return 0;
}
