/* long double on its way and in reductions.

   c/rvmc-cc -n 3 -o long_doubles.image c/programs/long_doubles.c && rvmc run < long_doubles.image */
#include <mpi.h>
#include <stdio.h>

int main(int argc, char *argv[])
{
    int rank, size, count;
    long double mine, sum, product, most, least, all[8], round[2];
    MPI_Status status;

    MPI_Init(&argc, &argv);
    MPI_Comm_rank(MPI_COMM_WORLD, &rank);
    MPI_Comm_size(MPI_COMM_WORLD, &size);
    mine = 1.0L / (1 << rank);
    MPI_Allreduce(&mine, &sum, 1, MPI_LONG_DOUBLE, MPI_SUM, MPI_COMM_WORLD);
    MPI_Allreduce(&mine, &product, 1, MPI_LONG_DOUBLE, MPI_PROD, MPI_COMM_WORLD);
    MPI_Allreduce(&mine, &most, 1, MPI_LONG_DOUBLE, MPI_MAX, MPI_COMM_WORLD);
    MPI_Allreduce(&mine, &least, 1, MPI_LONG_DOUBLE, MPI_MIN, MPI_COMM_WORLD);
    printf("sum %g, product %g, most %g, least %g\n", (double)sum, (double)product, (double)most, (double)least);
    MPI_Allgather(&mine, 1, MPI_LONG_DOUBLE, all, 1, MPI_LONG_DOUBLE, MPI_COMM_WORLD);
    for (int r = 0; r < size; r++)
        printf("%g ", (double)all[r]);
    round[0] = mine;
    round[1] = -mine;
    MPI_Sendrecv_replace(round, 2, MPI_LONG_DOUBLE, (rank + 1) % size, 0, (rank + size - 1) % size, 0, MPI_COMM_WORLD,
                         &status);
    MPI_Get_count(&status, MPI_LONG_DOUBLE, &count);
    printf("and from the left %g %g, %d of them\n", (double)round[0], (double)round[1], count);
    MPI_Finalize();
    return 0;
}
