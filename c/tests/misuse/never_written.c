#include <mpi.h>
#include <stdio.h>
#include <stdlib.h>

int main(int argc, char **argv)
{
    int rank;
    int *numbers = malloc(4 * sizeof *numbers); /* M */

    MPI_Init(&argc, &argv);
    MPI_Comm_rank(MPI_COMM_WORLD, &rank);
    numbers[0] = rank;
    for (int i = 1; i < 4; i++)
        numbers[0] += numbers[i]; /* A */
    printf("rank %d has %d\n", rank, numbers[0]);
    free(numbers);
    MPI_Finalize();
    return 0;
}
