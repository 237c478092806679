#include <mpi.h>
#include <stdio.h>
#include <stdlib.h>
#include <string.h>

int main(int argc, char **argv)
{
    int rank;
    char *text = malloc(9); /* M */

    MPI_Init(&argc, &argv);
    MPI_Comm_rank(MPI_COMM_WORLD, &rank);
    strcpy(text, "eight..."); /* A */
    MPI_Bcast(text, 8, MPI_CHAR, 0, MPI_COMM_WORLD);
    printf("rank %d has %s\n", rank, text);
    free(text);
    MPI_Finalize();
    return 0;
}
