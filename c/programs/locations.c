/* MPI_MAXLOC and MPI_MINLOC on all pair types: the largest and the least value, and whose it is. Of equal values the
   lower index counts.

   c/rvmc-cc -n 4 -o locations.image c/programs/locations.c && rvmc run < locations.image */
#include <mpi.h>
#include <stdio.h>

#define LOCATE(type, datatype, format, as, a, b)                                                                       \
    do {                                                                                                               \
        struct { type value; int place; } in[2] = {{(type)(a), rank}, {(type)(b), 10 + rank}}, most[2], least[2];      \
        MPI_Allreduce(in, most, 2, datatype, MPI_MAXLOC, MPI_COMM_WORLD);                                              \
        MPI_Reduce(in, least, 2, datatype, MPI_MINLOC, 2, MPI_COMM_WORLD);                                             \
        if (rank == 2)                                                                                                 \
            printf("%s: most " format " at %d, " format " at %d; least " format " at %d, " format " at %d\n", #datatype, \
                   (as)most[0].value, most[0].place, (as)most[1].value, most[1].place, (as)least[0].value, least[0].place, \
                   (as)least[1].value, least[1].place);                                                                \
    } while (0)

int main(int argc, char *argv[])
{
    int rank, tied;

    MPI_Init(&argc, &argv);
    MPI_Comm_rank(MPI_COMM_WORLD, &rank);
    tied = rank / 2;                                /* 0 0 1 1 */
    LOCATE(int, MPI_2INT, "%d", int, rank * rank - 2 * rank, tied);
    LOCATE(float, MPI_FLOAT_INT, "%g", double, 1.5 - rank, tied);
    LOCATE(double, MPI_DOUBLE_INT, "%g", double, (rank - 1) * (rank - 1) / 8.0, tied);
    LOCATE(long, MPI_LONG_INT, "%ld", long, 1000000000000L * (rank % 3), tied);
    LOCATE(short, MPI_SHORT_INT, "%d", int, 100 - rank * 100, tied);
    LOCATE(long double, MPI_LONG_DOUBLE_INT, "%g", double, rank * 0.25L, tied);
    MPI_Finalize();
    return 0;
}
