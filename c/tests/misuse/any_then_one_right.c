#include <mpi.h>
#include <stdio.h>

int main(int argc, char **argv)
{
    int rank;
    int number;

    MPI_Init(&argc, &argv);
    MPI_Comm_rank(MPI_COMM_WORLD, &rank);
    number = rank;
    if (rank > 0) {
        MPI_Send(&number, 1, MPI_INT, 0, 7, MPI_COMM_WORLD);
    } else {
        MPI_Recv(&number, 1, MPI_INT, 1, 7, MPI_COMM_WORLD, MPI_STATUS_IGNORE); /* A */
        MPI_Recv(&number, 1, MPI_INT, 2, 7, MPI_COMM_WORLD, MPI_STATUS_IGNORE); /* B */
    }
    printf("rank %d is through\n", rank);
    MPI_Finalize();
    return 0;
}
