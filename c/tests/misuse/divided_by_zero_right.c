#include <mpi.h>
#include <stdio.h>

int main(int argc, char **argv)
{
    int rank, sum = 12;

    MPI_Init(&argc, &argv);
    MPI_Comm_rank(MPI_COMM_WORLD, &rank);
    printf("rank %d has %d\n", rank, rank ? sum / rank : sum);
    MPI_Finalize();
    return 0;
}
