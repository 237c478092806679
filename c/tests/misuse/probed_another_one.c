#include <mpi.h>
#include <stdio.h>

int main(int argc, char **argv)
{
    int rank;
    int numbers[2] = {5, 6}, count;
    MPI_Status status;

    MPI_Init(&argc, &argv);
    MPI_Comm_rank(MPI_COMM_WORLD, &rank);
    if (rank > 0) {
        MPI_Send(numbers, rank, MPI_INT, 0, 7, MPI_COMM_WORLD);
    } else {
        for (int i = 0; i < 2; i++) {
            MPI_Probe(MPI_ANY_SOURCE, 7, MPI_COMM_WORLD, &status);
            MPI_Get_count(&status, MPI_INT, &count);
            MPI_Recv(numbers, count, MPI_INT, 2 - i, 7, MPI_COMM_WORLD, MPI_STATUS_IGNORE); /* A */
        }
    }
    printf("rank %d is through\n", rank);
    MPI_Finalize();
    return 0;
}
