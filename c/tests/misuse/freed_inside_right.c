#include <mpi.h>
#include <stdio.h>
#include <stdlib.h>

int main(int argc, char **argv)
{
    int rank;
    int *numbers = malloc(4 * sizeof *numbers); /* M */

    MPI_Init(&argc, &argv);
    MPI_Comm_rank(MPI_COMM_WORLD, &rank);
    for (int i = 0; i < 3; i++)
        numbers[i] = rank;
    printf("rank %d has %d\n", rank, numbers[2]);
    free(numbers); /* A */
    MPI_Finalize();
    return 0;
}
