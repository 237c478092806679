#include <mpi.h>
#include <stdio.h>
#include <stdlib.h>

int main(int argc, char **argv)
{
    int rank;
    int *numbers = malloc(4 * sizeof *numbers); /* M */

    MPI_Init(&argc, &argv);
    MPI_Comm_rank(MPI_COMM_WORLD, &rank);
    numbers[0] = 1;
    if (rank == 0)
        MPI_Send(numbers, 1, MPI_INT, 1, 7, MPI_COMM_WORLD);
    else
        MPI_Recv(numbers, 5, MPI_INT, 0, 7, MPI_COMM_WORLD, MPI_STATUS_IGNORE); /* A */
    printf("rank %d has %d\n", rank, numbers[0]);
    free(numbers);
    MPI_Finalize();
    return 0;
}
