#include <mpi.h>
#include <stdio.h>

int main(int argc, char **argv)
{
    int rank;
    int number = 1;

    MPI_Init(&argc, &argv);
    MPI_Comm_rank(MPI_COMM_WORLD, &rank);
    if (rank == 0)
        for (int i = 0; i < 1; i++)
            MPI_Send(&number, 1, MPI_INT, 1, i, MPI_COMM_WORLD); /* A */
    else
        MPI_Recv(&number, 1, MPI_INT, 0, 0, MPI_COMM_WORLD, MPI_STATUS_IGNORE);
    printf("rank %d has %d\n", rank, number);
    MPI_Finalize(); /* B */
    return 0;
}
