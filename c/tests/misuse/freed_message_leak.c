#include <mpi.h>
#include <stdio.h>

int main(int argc, char **argv)
{
    int rank, number = 1;
    MPI_Comm copy;

    MPI_Init(&argc, &argv);
    MPI_Comm_rank(MPI_COMM_WORLD, &rank);
    MPI_Comm_dup(MPI_COMM_WORLD, &copy);
    if (rank == 0)
        for (int i = 0; i < 2; i++)
            MPI_Send(&number, 1, MPI_INT, 1, i, copy); /* A */
    else
        MPI_Recv(&number, 1, MPI_INT, 0, 0, copy, MPI_STATUS_IGNORE);
    MPI_Comm_free(&copy);
    printf("rank %d has %d\n", rank, number);
    MPI_Finalize(); /* B */
    return 0;
}
