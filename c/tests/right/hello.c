#include <mpi.h>
#include <stdio.h>

int main(int argc, char *argv[])
{
    int rank;

    MPI_Init(&argc, &argv);
    MPI_Comm_rank(MPI_COMM_WORLD, &rank);
    printf("hello %s from %d\n", argc > 1 ? argv[1] : "world", rank);
    MPI_Finalize();
    return 0;
}
