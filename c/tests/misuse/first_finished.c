#include <mpi.h>
#include <stdio.h>

int main(int argc, char **argv)
{
    int rank;
    int numbers[2], first = 0;
    MPI_Request requests[2];

    MPI_Init(&argc, &argv);
    MPI_Comm_rank(MPI_COMM_WORLD, &rank);
    numbers[0] = rank;
    if (rank > 0) {
        MPI_Send(numbers, 1, MPI_INT, 0, 7, MPI_COMM_WORLD);
    } else {
        for (int i = 0; i < 2; i++)
            MPI_Irecv(numbers + i, 1, MPI_INT, MPI_ANY_SOURCE, 7, MPI_COMM_WORLD, requests + i); /* A */
        MPI_Waitall(2, requests, MPI_STATUSES_IGNORE);
        first = numbers[0];
        printf("rank 0 heard %d first\n", first);
    }
    MPI_Finalize();
    return 0;
}
