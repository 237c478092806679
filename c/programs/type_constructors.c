/* What each call makes of a datatype: its size, its bounds, and those of its data.

   c/rvmc-cc -n 1 -o type_constructors.image c/programs/type_constructors.c && rvmc run < type_constructors.image */
#include <mpi.h>
#include <stdio.h>

static void show(const char *name, MPI_Datatype *type)
{
    MPI_Aint low, extent, true_low, true_extent;
    MPI_Count size;

    MPI_Type_get_extent(*type, &low, &extent);
    MPI_Type_get_true_extent(*type, &true_low, &true_extent);
    MPI_Type_size_x(*type, &size);
    printf("%s: %d bytes, from %d, extent %d; data from %d, extent %d\n", name, (int)size, (int)low, (int)extent,
           (int)true_low, (int)true_extent);
    MPI_Type_free(type);
}

static void regular(void)
{
    MPI_Datatype type, within;

    MPI_Type_contiguous(5, MPI_INT, &type);
    show("contiguous", &type);
    MPI_Type_vector(3, 2, 4, MPI_DOUBLE, &type);
    show("vector", &type);
    MPI_Type_vector(3, 1, -2, MPI_SHORT, &type);
    show("vector backwards", &type);
    MPI_Type_create_hvector(4, 1, 12, MPI_INT, &type);
    show("hvector", &type);
    MPI_Type_vector(2, 1, 3, MPI_CHAR, &within);
    MPI_Type_contiguous(2, within, &type);
    show("contiguous of vectors", &type);
    MPI_Type_create_resized(within, -2, 10, &type);
    show("resized", &type);
    MPI_Type_create_resized(within, -2, 10, &type);
    MPI_Type_free(&within);
    MPI_Type_contiguous(3, type, &within);
    show("three resized", &within);
    MPI_Type_dup(type, &within);
    show("copy of one resized", &within);
    MPI_Type_free(&type);
}

static void irregular(void)
{
    const int lengths[3] = {2, 0, 1}, places[3] = {4, 9, 1};
    const MPI_Aint bytes[3] = {16, 100, -8}, ends[3] = {0, 8, 24};
    const MPI_Datatype types[3] = {MPI_DOUBLE, MPI_CHAR, MPI_SHORT};
    MPI_Datatype type;

    MPI_Type_indexed(3, lengths, places, MPI_INT, &type);
    show("indexed", &type);
    MPI_Type_create_hindexed(3, lengths, bytes, MPI_INT, &type);
    show("hindexed", &type);
    MPI_Type_create_indexed_block(3, 2, places, MPI_LONG, &type);
    show("indexed block", &type);
    MPI_Type_create_hindexed_block(3, 2, bytes, MPI_INT, &type);
    show("hindexed block", &type);
    MPI_Type_create_struct(3, (int[]){1, 3, 2}, ends, types, &type);
    show("struct", &type);
    MPI_Type_create_struct(2, (int[]){1, 1}, ends, (MPI_Datatype[]){MPI_DOUBLE, MPI_CHAR}, &type);
    show("struct with room behind it", &type);
    MPI_Type_create_struct(0, lengths, ends, types, &type);
    show("struct of nothing", &type);
}

static void arrays(void)
{
    const int sizes[3] = {4, 5, 6}, part[3] = {2, 3, 2}, starts[3] = {1, 0, 4};
    const int how[3] = {MPI_DISTRIBUTE_BLOCK, MPI_DISTRIBUTE_CYCLIC, MPI_DISTRIBUTE_NONE};
    const int arguments[3] = {MPI_DISTRIBUTE_DFLT_DARG, 2, MPI_DISTRIBUTE_DFLT_DARG}, grid[3] = {2, 2, 1};
    MPI_Datatype type;

    MPI_Type_create_subarray(3, sizes, part, starts, MPI_ORDER_C, MPI_INT, &type);
    show("subarray", &type);
    MPI_Type_create_subarray(3, sizes, part, starts, MPI_ORDER_FORTRAN, MPI_INT, &type);
    show("subarray of Fortran", &type);
    for (int rank = 0; rank < 4; rank++) {
        char name[32];

        sprintf(name, "darray %d", rank);
        MPI_Type_create_darray(4, rank, 3, sizes, how, arguments, grid, MPI_ORDER_C, MPI_INT, &type);
        show(name, &type);
        MPI_Type_create_darray(4, rank, 3, sizes, how, arguments, grid, MPI_ORDER_FORTRAN, MPI_INT, &type);
        show(name, &type);
    }
}

int main(int argc, char *argv[])
{
    MPI_Init(&argc, &argv);
    regular();
    irregular();
    arrays();
    MPI_Finalize();
    return 0;
}
