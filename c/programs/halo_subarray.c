/* A grid with a halo of one cell on each side, cut into stripes of columns; borders are subarrays. Then rank 0 gathers the
   cells by the part of a distributed array that each rank has.

   c/rvmc-cc -n 3 -o halo_subarray.image c/programs/halo_subarray.c && rvmc run < halo_subarray.image */
#include <mpi.h>
#include <stdio.h>

#define ROWS 4
#define COLUMNS 3

static MPI_Datatype part(int rows, int columns, int row, int column)
{
    const int sizes[2] = {ROWS + 2, COLUMNS + 2}, subsizes[2] = {rows, columns}, starts[2] = {row, column};
    MPI_Datatype type;

    MPI_Type_create_subarray(2, sizes, subsizes, starts, MPI_ORDER_C, MPI_INT, &type);
    MPI_Type_commit(&type);
    return type;
}

static void gather(int rank, int size, int cells[ROWS + 2][COLUMNS + 2], MPI_Datatype inner)
{
    const int sizes[2] = {ROWS, 3 * COLUMNS}, grid[2] = {1, 3};
    const int how[2] = {MPI_DISTRIBUTE_NONE, MPI_DISTRIBUTE_BLOCK};
    const int arguments[2] = {MPI_DISTRIBUTE_DFLT_DARG, MPI_DISTRIBUTE_DFLT_DARG};
    int all[ROWS][3 * COLUMNS];
    MPI_Request request;

    MPI_Isend(cells, 1, inner, 0, 5, MPI_COMM_WORLD, &request);
    for (int r = 0; rank == 0 && r < size; r++) {
        MPI_Datatype type;

        MPI_Type_create_darray(size, r, 2, sizes, how, arguments, grid, MPI_ORDER_C, MPI_INT, &type);
        MPI_Type_commit(&type);
        MPI_Recv(all, 1, type, r, 5, MPI_COMM_WORLD, MPI_STATUS_IGNORE);
        MPI_Type_free(&type);
    }
    MPI_Wait(&request, MPI_STATUS_IGNORE);
    for (int i = 0; rank == 0 && i < ROWS; i++) {
        printf("all:");
        for (int j = 0; j < 3 * COLUMNS; j++)
            printf(" %d", all[i][j]);
        printf("\n");
    }
}

int main(int argc, char *argv[])
{
    int rank, size, left, right, cells[ROWS + 2][COLUMNS + 2] = {{0}};
    MPI_Datatype borders[4], inner;
    MPI_Request requests[4];

    MPI_Init(&argc, &argv);
    MPI_Comm_rank(MPI_COMM_WORLD, &rank);
    MPI_Comm_size(MPI_COMM_WORLD, &size);
    left = rank > 0 ? rank - 1 : MPI_PROC_NULL;
    right = rank < size - 1 ? rank + 1 : MPI_PROC_NULL;
    for (int i = 1; i <= ROWS; i++)
        for (int j = 1; j <= COLUMNS; j++)
            cells[i][j] = 100 * (rank + 1) + 10 * i + j;
    borders[0] = part(ROWS, 1, 1, 1);
    borders[1] = part(ROWS, 1, 1, COLUMNS);
    borders[2] = part(ROWS, 1, 1, 0);
    borders[3] = part(ROWS, 1, 1, COLUMNS + 1);
    inner = part(ROWS, COLUMNS, 1, 1);
    MPI_Irecv(cells, 1, borders[2], left, 0, MPI_COMM_WORLD, &requests[0]);
    MPI_Irecv(cells, 1, borders[3], right, 1, MPI_COMM_WORLD, &requests[1]);
    MPI_Isend(cells, 1, borders[0], left, 1, MPI_COMM_WORLD, &requests[2]);
    MPI_Isend(cells, 1, borders[1], right, 0, MPI_COMM_WORLD, &requests[3]);
    MPI_Waitall(4, requests, MPI_STATUSES_IGNORE);
    for (int i = 0; i < ROWS + 2; i++) {
        for (int j = 0; j < COLUMNS + 2; j++)
            printf(" %3d", cells[i][j]);
        printf("\n");
    }
    gather(rank, size, cells, inner);
    for (int i = 0; i < 4; i++)
        MPI_Type_free(&borders[i]);
    MPI_Type_free(&inner);
    MPI_Finalize();
    return 0;
}
