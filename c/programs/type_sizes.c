/* Sizes and extents of the basic types, and how many numbers of each a message has.

   c/rvmc-cc -n 2 -o type_sizes.image c/programs/type_sizes.c && rvmc run < type_sizes.image */
#include <mpi.h>
#include <stdio.h>

static const struct {
    MPI_Datatype type;
    const char *name;
} types[] = {
    {MPI_CHAR, "CHAR"}, {MPI_SIGNED_CHAR, "SIGNED_CHAR"}, {MPI_UNSIGNED_CHAR, "UNSIGNED_CHAR"}, {MPI_BYTE, "BYTE"},
    {MPI_WCHAR, "WCHAR"}, {MPI_SHORT, "SHORT"}, {MPI_UNSIGNED_SHORT, "UNSIGNED_SHORT"}, {MPI_INT, "INT"},
    {MPI_UNSIGNED, "UNSIGNED"}, {MPI_LONG, "LONG"}, {MPI_UNSIGNED_LONG, "UNSIGNED_LONG"}, {MPI_LONG_LONG, "LONG_LONG"},
    {MPI_LONG_LONG_INT, "LONG_LONG_INT"}, {MPI_UNSIGNED_LONG_LONG, "UNSIGNED_LONG_LONG"}, {MPI_FLOAT, "FLOAT"},
    {MPI_DOUBLE, "DOUBLE"}, {MPI_LONG_DOUBLE, "LONG_DOUBLE"}, {MPI_C_BOOL, "C_BOOL"}, {MPI_INT8_T, "INT8_T"},
    {MPI_INT16_T, "INT16_T"}, {MPI_INT32_T, "INT32_T"}, {MPI_INT64_T, "INT64_T"}, {MPI_UINT8_T, "UINT8_T"},
    {MPI_UINT16_T, "UINT16_T"}, {MPI_UINT32_T, "UINT32_T"}, {MPI_UINT64_T, "UINT64_T"}, {MPI_AINT, "AINT"},
    {MPI_COUNT, "COUNT"}, {MPI_OFFSET, "OFFSET"}, {MPI_C_COMPLEX, "C_COMPLEX"}, {MPI_C_FLOAT_COMPLEX, "C_FLOAT_COMPLEX"},
    {MPI_C_DOUBLE_COMPLEX, "C_DOUBLE_COMPLEX"}, {MPI_C_LONG_DOUBLE_COMPLEX, "C_LONG_DOUBLE_COMPLEX"},
    {MPI_2INT, "2INT"}, {MPI_FLOAT_INT, "FLOAT_INT"}, {MPI_DOUBLE_INT, "DOUBLE_INT"}, {MPI_LONG_INT, "LONG_INT"},
    {MPI_SHORT_INT, "SHORT_INT"}, {MPI_LONG_DOUBLE_INT, "LONG_DOUBLE_INT"},
};

int main(int argc, char *argv[])
{
    enum { KINDS = sizeof(types) / sizeof(types[0]) };
    int rank, size, count;
    MPI_Aint low, extent;
    MPI_Count large;
    MPI_Status status;
    static long double buffer[64];

    MPI_Init(&argc, &argv);
    MPI_Comm_rank(MPI_COMM_WORLD, &rank);
    for (int i = 0; i < KINDS; i++)
        if (rank == 0) {
            MPI_Send(buffer, 3, types[i].type, 1, i, MPI_COMM_WORLD);
        } else {
            MPI_Type_size(types[i].type, &size);
            MPI_Type_size_x(types[i].type, &large);
            MPI_Type_get_extent(types[i].type, &low, &extent);
            MPI_Recv(buffer, 5, types[i].type, 0, i, MPI_COMM_WORLD, &status);
            MPI_Get_count(&status, types[i].type, &count);
            printf("%s: size %d, extent %ld from %ld; %d came%s\n", types[i].name, size, (long)extent, (long)low, count,
                   large == size ? "" : ": WRONG");
        }
    MPI_Finalize();
    return 0;
}
