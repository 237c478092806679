#include <mpi.h>
#include <stdio.h>

int main(int argc, char **argv)
{
    int rank;
    int numbers[4] = {1, 2, 3, 4};
    MPI_Datatype both;

    MPI_Init(&argc, &argv);
    MPI_Comm_rank(MPI_COMM_WORLD, &rank);
    MPI_Type_contiguous(4, MPI_INT, &both); /* A */
    MPI_Type_commit(&both);
    MPI_Bcast(numbers, 1, both, 0, MPI_COMM_WORLD);
    printf("rank %d has %d\n", rank, numbers[3]);
    MPI_Type_free(&both);
    MPI_Finalize(); /* B */
    return 0;
}
