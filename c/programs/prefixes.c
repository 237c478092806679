/* Prefixes: MPI_Scan and MPI_Exscan, as they are used to share out places in an array.

   c/rvmc-cc -n 6 -o prefixes.image c/programs/prefixes.c && rvmc run < prefixes.image */
#include <mpi.h>
#include <stdio.h>

int main(int argc, char *argv[])
{
    int rank, size, count, before = 0, through, total, places[64], counts[8], starts[8];
    double weight, heavier;

    MPI_Init(&argc, &argv);
    MPI_Comm_rank(MPI_COMM_WORLD, &rank);
    MPI_Comm_size(MPI_COMM_WORLD, &size);
    count = (rank * 5 + 2) % 4;
    MPI_Exscan(&count, &before, 1, MPI_INT, MPI_SUM, MPI_COMM_WORLD);
    if (rank == 0)
        before = 0;
    MPI_Scan(&count, &through, 1, MPI_INT, MPI_SUM, MPI_COMM_WORLD);
    MPI_Allreduce(&count, &total, 1, MPI_INT, MPI_SUM, MPI_COMM_WORLD);
    weight = (rank * 7 % 5) / 2.0;
    MPI_Scan(&weight, &heavier, 1, MPI_DOUBLE, MPI_MAX, MPI_COMM_WORLD);
    printf("%d places from %d to %d of %d; the heaviest so far %g\n", count, before, through, total, heavier);

    MPI_Allgather(&count, 1, MPI_INT, counts, 1, MPI_INT, MPI_COMM_WORLD);
    MPI_Allgather(&before, 1, MPI_INT, starts, 1, MPI_INT, MPI_COMM_WORLD);
    for (int i = 0; i < count; i++)
        places[before + i] = rank * 10 + i;
    MPI_Allgatherv(MPI_IN_PLACE, 0, MPI_DATATYPE_NULL, places, counts, starts, MPI_INT, MPI_COMM_WORLD);
    if (rank == size - 1)
        for (int i = 0; i < total; i++)
            printf("%d%c", places[i], i == total - 1 ? '\n' : ' ');
    MPI_Finalize();
    return 0;
}
