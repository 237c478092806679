/* Rank 1 answers with another tag than rank 0 waits for. */
#include <mpi.h>
#include <stdio.h>

int main(int argc, char **argv)
{
    int rank, number = 21;

    MPI_Init(&argc, &argv);
    MPI_Comm_rank(MPI_COMM_WORLD, &rank);
    if (rank == 0) {
        MPI_Send(&number, 1, MPI_INT, 1, 1, MPI_COMM_WORLD);
        MPI_Recv(&number, 1, MPI_INT, 1, 2, MPI_COMM_WORLD, MPI_STATUS_IGNORE);
        printf("twice is %d\n", number);
    } else {
        MPI_Recv(&number, 1, MPI_INT, 0, 1, MPI_COMM_WORLD, MPI_STATUS_IGNORE);
        number *= 2;
        MPI_Send(&number, 1, MPI_INT, 0, 12, MPI_COMM_WORLD);
    }
    MPI_Finalize();
    return 0;
}
