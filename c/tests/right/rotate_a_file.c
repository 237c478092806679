/* Adds a line to a file that was given, in each rank's own copy, and counts its lines. */
#include <mpi.h>
#include <stdio.h>

int main(int argc, char *argv[])
{
    int rank, lines = 0, letter;
    FILE *file;

    MPI_Init(&argc, &argv);
    MPI_Comm_rank(MPI_COMM_WORLD, &rank);
    if (rank == 1) {
        file = fopen("numbers.txt", "a");
        fprintf(file, "5 3\n");
        fclose(file);
    }
    file = fopen("./numbers.txt", "r");
    while ((letter = fgetc(file)) != EOF)
        lines += letter == '\n';
    fclose(file);
    printf("rank %d counts %d lines\n", rank, lines);
    MPI_Finalize();
    return 0;
}
