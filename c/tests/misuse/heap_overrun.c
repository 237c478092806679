#include <mpi.h>
#include <stdio.h>
#include <stdlib.h>

int main(int argc, char **argv)
{
    int rank;
    int *numbers = malloc(4 * sizeof *numbers); /* M */

    MPI_Init(&argc, &argv);
    MPI_Comm_rank(MPI_COMM_WORLD, &rank);
    for (int i = 0; i <= 4; i++)
        numbers[i] = rank; /* A */
    MPI_Bcast(numbers, 4, MPI_INT, 0, MPI_COMM_WORLD);
    printf("rank %d has %d\n", rank, numbers[3]);
    free(numbers);
    MPI_Finalize();
    return 0;
}
