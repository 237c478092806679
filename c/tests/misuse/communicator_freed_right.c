#include <mpi.h>
#include <stdio.h>

int main(int argc, char **argv)
{
    int rank;
    int number = 5;
    MPI_Comm copy, alias;

    MPI_Init(&argc, &argv);
    MPI_Comm_rank(MPI_COMM_WORLD, &rank);
    MPI_Comm_dup(MPI_COMM_WORLD, &copy); /* A */
    alias = copy;
    MPI_Bcast(&number, 1, MPI_INT, 0, alias); /* C */
    MPI_Comm_free(&copy); /* B */
    printf("rank %d has %d\n", rank, number);
    MPI_Finalize();
    return 0;
}
