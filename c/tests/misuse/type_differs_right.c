#include <mpi.h>
#include <stdio.h>

int main(int argc, char **argv)
{
    int rank;
    double sent = 1;
    double number = 0;

    MPI_Init(&argc, &argv);
    MPI_Comm_rank(MPI_COMM_WORLD, &rank);
    if (rank == 0)
        MPI_Send(&sent, 1, MPI_DOUBLE, 1, 7, MPI_COMM_WORLD); /* A */
    else
        MPI_Recv(&number, 1, MPI_DOUBLE, 0, 7, MPI_COMM_WORLD, MPI_STATUS_IGNORE); /* B */
    if (rank == 1)
        printf("rank 1 got %g\n", number);
    MPI_Finalize();
    return 0;
}
