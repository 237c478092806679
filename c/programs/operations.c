/* Each operation of MPI on the types of numbers that it knows, reduced over four ranks.

   c/rvmc-cc -n 4 -o operations.image c/programs/operations.c && rvmc run < operations.image */
#include <mpi.h>
#include <stdio.h>

#define REDUCE(type, datatype, format, a, b, ...)                                                                        \
    do {                                                                                                                 \
        static const struct { MPI_Op op; const char *name; } list[] = {__VA_ARGS__};                                    \
        for (unsigned i = 0; i < sizeof(list) / sizeof(list[0]); i++) {                                                  \
            type in[2] = {(type)(a), (type)(b)}, out[2] = {0, 0};                                                        \
            MPI_Reduce(in, out, 2, datatype, list[i].op, 3, MPI_COMM_WORLD);                                                \
            if (rank == 3)                                                                                               \
                printf("%s %s: " format " " format "\n", #datatype, list[i].name, out[0], out[1]);                       \
        }                                                                                                                \
    } while (0)

#define ORDER {MPI_MAX, "MAX"}, {MPI_MIN, "MIN"}
#define ARITHMETIC ORDER, {MPI_SUM, "SUM"}, {MPI_PROD, "PROD"}
#define LOGICAL {MPI_LAND, "LAND"}, {MPI_LOR, "LOR"}, {MPI_LXOR, "LXOR"}
#define BITS {MPI_BAND, "BAND"}, {MPI_BOR, "BOR"}, {MPI_BXOR, "BXOR"}

int main(int argc, char *argv[])
{
    int rank;

    MPI_Init(&argc, &argv);
    MPI_Comm_rank(MPI_COMM_WORLD, &rank);
    REDUCE(int, MPI_INT, "%d", rank - 2, 1 << rank, ARITHMETIC, LOGICAL, BITS);
    REDUCE(signed char, MPI_SIGNED_CHAR, "%d", rank - 1, 3 * rank, ARITHMETIC, LOGICAL, BITS);
    REDUCE(unsigned char, MPI_UNSIGNED_CHAR, "%u", rank + 250, rank, ARITHMETIC, LOGICAL, BITS);
    REDUCE(unsigned short, MPI_UNSIGNED_SHORT, "%u", rank + 65530, rank & 1, ARITHMETIC, LOGICAL, BITS);
    REDUCE(unsigned, MPI_UNSIGNED, "%u", rank + 7, rank + 3, ARITHMETIC, LOGICAL, BITS);
    REDUCE(long, MPI_LONG, "%ld", rank * 1000000007L, -rank, ARITHMETIC, LOGICAL, BITS);
    REDUCE(unsigned long long, MPI_UNSIGNED_LONG_LONG, "%llu", rank + 7, rank + 1, ARITHMETIC, LOGICAL, BITS);
    REDUCE(unsigned long, MPI_UINT64_T, "%lu", rank + 9, rank + 2, ORDER, BITS);
    REDUCE(float, MPI_FLOAT, "%g", rank - 1.5, rank + 0.25, ARITHMETIC);
    REDUCE(double, MPI_DOUBLE, "%g", rank - 1.5, rank + 0.25, ARITHMETIC);
    REDUCE(MPI_Aint, MPI_AINT, "%ld", rank - 2, rank + 2, ARITHMETIC);
    REDUCE(long, MPI_OFFSET, "%ld", rank - 2, rank + 2, ORDER, {MPI_SUM, "SUM"});
    REDUCE(long, MPI_COUNT, "%ld", rank - 2, rank + 2, ORDER, {MPI_SUM, "SUM"});
    REDUCE(unsigned char, MPI_BYTE, "%u", 15 << rank, 255 - rank, BITS);
    REDUCE(_Bool, MPI_C_BOOL, "%d", rank == 2, rank < 9, LOGICAL);
    MPI_Finalize();
    return 0;
}
