/* Rank 0 collects a table and saves it; then it reads it back. */
#include <mpi.h>
#include <stdio.h>

int main(int argc, char *argv[])
{
    int rank, size, mine, n, square, sum = 0, squares[8];

    MPI_Init(&argc, &argv);
    MPI_Comm_rank(MPI_COMM_WORLD, &rank);
    MPI_Comm_size(MPI_COMM_WORLD, &size);
    mine = (rank + 1) * (rank + 1);
    MPI_Gather(&mine, 1, MPI_INT, squares, 1, MPI_INT, 0, MPI_COMM_WORLD);
    if (rank == 0) {
        FILE *file = fopen("squares.txt", "w");

        for (int i = 0; i < size; i++)
            fprintf(file, "%d %d\n", i + 1, squares[i]);
        fclose(file);
        file = fopen("squares.txt", "r");
        while (fscanf(file, "%d %d", &n, &square) == 2)
            sum += square;
        fclose(file);
        printf("%d squares add up to %d\n", n, sum);
    }
    MPI_Finalize();
    return 0;
}
