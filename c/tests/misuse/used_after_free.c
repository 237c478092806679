#include <mpi.h>
#include <stdio.h>
#include <stdlib.h>

int main(int argc, char **argv)
{
    int rank;
    int *numbers = malloc(4 * sizeof *numbers); /* M */

    MPI_Init(&argc, &argv);
    MPI_Comm_rank(MPI_COMM_WORLD, &rank);
    for (int i = 0; i < 4; i++)
        numbers[i] = rank;
    free(numbers); /* B */
    printf("rank %d has %d\n", rank, numbers[3]); /* A */
    MPI_Finalize();
    return 0;
}
