#include <mpi.h>
#include <stdio.h>

int main(int argc, char **argv)
{
    int rank;
    double numbers[6] = {0, 1, 2, 3, 4, 5};
    MPI_Datatype column;

    MPI_Init(&argc, &argv);
    MPI_Comm_rank(MPI_COMM_WORLD, &rank);
    MPI_Type_vector(3, 1, 2, MPI_DOUBLE, &column);
    MPI_Type_commit(&column);
    if (rank == 0)
        MPI_Send(numbers, 1, column, 1, 7, MPI_COMM_WORLD); /* A */
    else
        MPI_Recv(numbers, 3, MPI_DOUBLE, 0, 7, MPI_COMM_WORLD, MPI_STATUS_IGNORE); /* B */
    MPI_Type_free(&column);
    printf("rank %d has %g\n", rank, numbers[1]);
    MPI_Finalize();
    return 0;
}
