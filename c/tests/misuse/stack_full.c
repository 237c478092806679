#include <mpi.h>
#include <stdio.h>

static int depth(int n)
{
    volatile int locals[8] = {0}; /* A */

    locals[n % 8] = n;
    return n ? depth(n - 1) + locals[n % 8] - n + 1 : 0;
}

int main(int argc, char **argv)
{
    int rank;
    int sum;

    MPI_Init(&argc, &argv);
    MPI_Comm_rank(MPI_COMM_WORLD, &rank);
    sum = depth(2000);
    printf("rank %d has %d\n", rank, sum);
    MPI_Finalize();
    return 0;
}
