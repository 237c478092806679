/* The sum of an array that is a local variable of 240,000 bytes, as on any other machine. */
#include <mpi.h>
#include <stdio.h>

#define N 30000

static long sum_of_values(int from)
{
    long values[N], sum = 0;

    for (int i = 0; i < N; i++)
        values[i] = from + i % 10;
    for (int i = 0; i < N; i++)
        sum += values[i];
    return sum;
}

int main(int argc, char **argv)
{
    int rank;
    long mine, all;

    MPI_Init(&argc, &argv);
    MPI_Comm_rank(MPI_COMM_WORLD, &rank);
    mine = sum_of_values(rank);
    MPI_Reduce(&mine, &all, 1, MPI_LONG, MPI_SUM, 0, MPI_COMM_WORLD);
    if (rank == 0)
        printf("sum %ld\n", all);
    MPI_Finalize();
    return 0;
}
