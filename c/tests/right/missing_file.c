/* Reads a matrix, if it is there. */
#include <mpi.h>
#include <stdio.h>

int main(int argc, char *argv[])
{
    int rank, value = -1;
    FILE *file, *other;

    MPI_Init(&argc, &argv);
    MPI_Comm_rank(MPI_COMM_WORLD, &rank);
    file = fopen("matrix.txt", "r");
    other = fopen("other.txt", "r");
    if (file == NULL || fscanf(file, "%d", &value) != 1)
        printf("rank %d has no matrix\n", rank);
    if (other == NULL)
        printf("rank %d has no other\n", rank);
    MPI_Finalize();
    return 0;
}
