/* How a datatype was made: its envelope and its contents, and those of the datatypes within it.

   c/rvmc-cc -n 1 -o type_contents.image c/programs/type_contents.c && rvmc run < type_contents.image */
#include <mpi.h>
#include <stdio.h>

static const char *name_of(int combiner)
{
    switch (combiner) {
    case MPI_COMBINER_NAMED: return "named";
    case MPI_COMBINER_DUP: return "dup";
    case MPI_COMBINER_CONTIGUOUS: return "contiguous";
    case MPI_COMBINER_VECTOR: return "vector";
    case MPI_COMBINER_HVECTOR: return "hvector";
    case MPI_COMBINER_INDEXED: return "indexed";
    case MPI_COMBINER_HINDEXED: return "hindexed";
    case MPI_COMBINER_INDEXED_BLOCK: return "indexed block";
    case MPI_COMBINER_HINDEXED_BLOCK: return "hindexed block";
    case MPI_COMBINER_STRUCT: return "struct";
    case MPI_COMBINER_SUBARRAY: return "subarray";
    case MPI_COMBINER_DARRAY: return "darray";
    case MPI_COMBINER_RESIZED: return "resized";
    default: return "something else";
    }
}

static void show(MPI_Datatype type, int depth)
{
    int integers, addresses, types, combiner, integer[32];
    MPI_Aint address[32];
    MPI_Datatype within[32];

    MPI_Type_get_envelope(type, &integers, &addresses, &types, &combiner);
    printf("%*s%s", 2 * depth, "", name_of(combiner));
    if (combiner == MPI_COMBINER_NAMED) {
        char name[MPI_MAX_OBJECT_NAME];
        int length;

        MPI_Type_get_name(type, name, &length);
        printf(" %s\n", name);
        return;
    }
    MPI_Type_get_contents(type, integers, addresses, types, integer, address, within);
    for (int i = 0; i < integers; i++)
        printf(" %d", integer[i]);
    printf(";");
    for (int i = 0; i < addresses; i++)
        printf(" %d", (int)address[i]);
    printf("; %d\n", types);
    for (int i = 0; i < types; i++) {
        show(within[i], depth + 1);
        MPI_Type_get_envelope(within[i], &integers, &addresses, &types, &combiner);
        if (combiner != MPI_COMBINER_NAMED)
            MPI_Type_free(within + i);
    }
}

static void show_and_free(MPI_Datatype *type)
{
    show(*type, 0);
    MPI_Type_free(type);
}

int main(int argc, char *argv[])
{
    const int lengths[2] = {2, 1}, places[2] = {5, 0}, sizes[2] = {6, 4}, part[2] = {2, 2}, starts[2] = {3, 1};
    const int how[2] = {MPI_DISTRIBUTE_CYCLIC, MPI_DISTRIBUTE_BLOCK}, arguments[2] = {2, 2}, grid[2] = {3, 2};
    const MPI_Aint bytes[2] = {64, 8};
    MPI_Datatype type, within;

    MPI_Init(&argc, &argv);
    MPI_Type_contiguous(3, MPI_INT, &type);
    show_and_free(&type);
    MPI_Type_vector(2, 3, 4, MPI_DOUBLE, &within);
    MPI_Type_create_hvector(2, 1, 100, within, &type);
    MPI_Type_free(&within);
    show_and_free(&type);
    MPI_Type_indexed(2, lengths, places, MPI_CHAR, &type);
    show_and_free(&type);
    MPI_Type_create_hindexed(2, lengths, bytes, MPI_CHAR, &type);
    show_and_free(&type);
    MPI_Type_create_indexed_block(2, 3, places, MPI_SHORT, &type);
    show_and_free(&type);
    MPI_Type_create_hindexed_block(2, 3, bytes, MPI_SHORT, &type);
    show_and_free(&type);
    MPI_Type_create_subarray(2, sizes, part, starts, MPI_ORDER_C, MPI_FLOAT, &type);
    show_and_free(&type);
    MPI_Type_create_darray(6, 4, 2, sizes, how, arguments, grid, MPI_ORDER_FORTRAN, MPI_FLOAT, &type);
    show_and_free(&type);
    MPI_Type_contiguous(4, MPI_BYTE, &within);
    MPI_Type_dup(within, &type);
    MPI_Type_free(&within);
    show_and_free(&type);
    MPI_Type_create_resized(MPI_INT, -4, 16, &within);
    MPI_Type_create_struct(2, lengths, bytes, (MPI_Datatype[]){MPI_LONG, within}, &type);
    MPI_Type_free(&within);
    show_and_free(&type);
    MPI_Finalize();
    return 0;
}
