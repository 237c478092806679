#include <mpi.h>
#include <stdio.h>
#include <stdlib.h>

int main(int argc, char **argv)
{
    int rank;
    int *numbers = malloc(2 * sizeof *numbers);
    MPI_Request request;

    MPI_Init(&argc, &argv);
    MPI_Comm_rank(MPI_COMM_WORLD, &rank);
    numbers[0] = numbers[1] = rank;
    if (rank == 0) {
        MPI_Isend(numbers, 2, MPI_INT, 1, 7, MPI_COMM_WORLD, &request); /* A */
        MPI_Wait(&request, MPI_STATUS_IGNORE);
        free(numbers); /* B */
    } else {
        MPI_Recv(numbers, 2, MPI_INT, 0, 7, MPI_COMM_WORLD, MPI_STATUS_IGNORE);
        printf("rank 1 has %d\n", numbers[1]);
        free(numbers);
    }
    MPI_Finalize();
    return 0;
}
