/* A grid of ranks: coordinates and ranks, shifts, halos that go round, rows and columns of it, and ranks that stay out.

   c/rvmc-cc -n 7 -o cart.image c/programs/cart.c && rvmc run < cart.image */
#include <mpi.h>
#include <stdio.h>

/* What the neighbors have, in both directions of each dimension. */
static void halo(MPI_Comm grid, int value)
{
    for (int dimension = 0; dimension < 2; dimension++) {
        int before, behind, low = -1, high = -1;

        MPI_Cart_shift(grid, dimension, 1, &before, &behind);
        MPI_Sendrecv(&value, 1, MPI_INT, behind, 0, &low, 1, MPI_INT, before, 0, grid, MPI_STATUS_IGNORE);
        MPI_Sendrecv(&value, 1, MPI_INT, before, 0, &high, 1, MPI_INT, behind, 0, grid, MPI_STATUS_IGNORE);
        printf("dimension %d: %d and %d\n", dimension, low, high);
    }
}

static void show(const char *name, MPI_Comm comm)
{
    int rank, size, dimensions, kind, dims[2], periods[2], at[2];

    MPI_Topo_test(comm, &kind);
    MPI_Comm_rank(comm, &rank);
    MPI_Comm_size(comm, &size);
    MPI_Cartdim_get(comm, &dimensions);
    MPI_Cart_get(comm, 2, dims, periods, at);
    printf("%s: %s, %d of %d:", name, kind == MPI_CART ? "Cartesian" : "WRONG", rank, size);
    for (int i = 0; i < dimensions; i++)
        printf(" %d of %d%s", at[i], dims[i], periods[i] ? " periodic" : "");
    printf("\n");
}

int main(int argc, char *argv[])
{
    int world, rank, sum, kind, there, back[2], dims[2] = {0, 0}, periods[2] = {1, 0}, remain[2];
    MPI_Comm grid, part, dup;

    MPI_Init(&argc, &argv);
    MPI_Comm_rank(MPI_COMM_WORLD, &world);
    MPI_Dims_create(6, 2, dims);
    MPI_Cart_map(MPI_COMM_WORLD, 2, dims, periods, &rank);
    printf("map: %d\n", rank == MPI_UNDEFINED ? -1 : rank);
    MPI_Cart_create(MPI_COMM_WORLD, 2, dims, periods, 0, &grid);
    if (grid == MPI_COMM_NULL) {
        printf("out of the grid\n");
    } else {
        MPI_Comm_rank(grid, &rank);
        show("grid", grid);
        for (there = 0; there < 6; there++) {
            MPI_Cart_coords(grid, there, 2, back);
            MPI_Cart_rank(grid, back, &kind);
            if (kind != there)
                printf("rank %d is WRONG\n", there);
        }
        back[0] = -1;
        back[1] = 1;
        MPI_Cart_rank(grid, back, &there);
        printf("at -1, 1: %d\n", there);
        halo(grid, 100 + rank);
        for (int i = 0; i < 2; i++) {
            remain[i] = 1;
            remain[1 - i] = 0;
            MPI_Cart_sub(grid, remain, &part);
            show(i ? "row" : "column", part);
            MPI_Allreduce(&rank, &sum, 1, MPI_INT, MPI_SUM, part);
            printf("sum %d\n", sum);
            MPI_Comm_free(&part);
        }
        MPI_Comm_dup(grid, &dup);
        show("dup", dup);
        MPI_Comm_free(&dup);
        MPI_Comm_split(grid, 0, 0, &dup);
        MPI_Topo_test(dup, &kind);
        printf("split: %s\n", kind == MPI_UNDEFINED ? "none" : "WRONG");
        MPI_Comm_free(&dup);
        MPI_Comm_free(&grid);
    }
    MPI_Finalize();
    return 0;
}
