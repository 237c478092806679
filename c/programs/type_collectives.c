/* Collectives with columns of a matrix on one side and plain numbers on the other.

   c/rvmc-cc -n 4 -o type_collectives.image c/programs/type_collectives.c && rvmc run < type_collectives.image */
#include <mpi.h>
#include <stdio.h>
#include <string.h>

#define SIZE 4

static int matrix[SIZE][SIZE], numbers[SIZE * SIZE], rank;

static void fill(void)
{
    for (int i = 0; i < SIZE; i++)
        for (int j = 0; j < SIZE; j++)
            matrix[i][j] = 100 * rank + 10 * i + j;
    memset(numbers, 0, sizeof numbers);
}

static void show(const char *name, const int *of, int count)
{
    printf("%s:", name);
    for (int i = 0; i < count; i++)
        printf(" %d", of[i]);
    printf("\n");
    fill();
}

static void rooted(MPI_Datatype column)
{
    const int counts[SIZE] = {1, 0, 2, 1}, places[SIZE] = {2, 0, 0, 3};

    MPI_Bcast(&matrix[0][1], 1, column, 2, MPI_COMM_WORLD);
    show("Bcast", matrix[0], SIZE * SIZE);
    if (rank == 1)
        MPI_Bcast(matrix, 2, column, 1, MPI_COMM_WORLD);
    else
        MPI_Bcast(numbers, 2 * SIZE, MPI_INT, 1, MPI_COMM_WORLD);
    show("Bcast to numbers", rank == 1 ? matrix[0] : numbers, 2 * SIZE);
    memcpy(numbers, matrix[1], sizeof matrix[1]);
    MPI_Gather(numbers, SIZE, MPI_INT, matrix, 1, column, 3, MPI_COMM_WORLD);
    show("Gather", matrix[0], SIZE * SIZE);
    MPI_Scatter(matrix, 1, column, numbers, SIZE, MPI_INT, 0, MPI_COMM_WORLD);
    show("Scatter", numbers, SIZE);
    MPI_Scatterv(matrix, counts, places, column, numbers, counts[rank] * SIZE, MPI_INT, 1, MPI_COMM_WORLD);
    show("Scatterv", numbers, 2 * SIZE);
    MPI_Gatherv(numbers, counts[rank] * SIZE, MPI_INT, matrix, counts, places, column, 0, MPI_COMM_WORLD);
    show("Gatherv", matrix[0], SIZE * SIZE);
    if (rank == 2)
        MPI_Gather(MPI_IN_PLACE, 1, column, matrix, 1, column, 2, MPI_COMM_WORLD);
    else
        MPI_Gather(&matrix[0][3], 1, column, 0, 0, MPI_INT, 2, MPI_COMM_WORLD);
    show("Gather in place", matrix[0], SIZE * SIZE);
}

static void everybody(MPI_Datatype column)
{
    const int ones[SIZE] = {1, 1, 1, 1}, rows[SIZE] = {SIZE, SIZE, SIZE, SIZE}, steps[SIZE] = {0, 1, 2, 3};
    const int places[SIZE] = {0, 4, 8, 12}, starts[SIZE] = {0, 16, 32, 48}, bytes[SIZE] = {12, 8, 4, 0};
    const MPI_Datatype columns[SIZE] = {column, column, column, column};
    const MPI_Datatype ints[SIZE] = {MPI_INT, MPI_INT, MPI_INT, MPI_INT};

    MPI_Allgather(&matrix[0][rank], 1, column, numbers, SIZE, MPI_INT, MPI_COMM_WORLD);
    show("Allgather", numbers, SIZE * SIZE);
    MPI_Allgather(MPI_IN_PLACE, 0, MPI_DATATYPE_NULL, matrix, 1, column, MPI_COMM_WORLD);
    show("Allgather in place", matrix[0], SIZE * SIZE);
    MPI_Allgatherv(numbers, SIZE, MPI_INT, matrix, ones, steps, column, MPI_COMM_WORLD);
    show("Allgatherv", matrix[0], SIZE * SIZE);
    MPI_Alltoall(matrix, 1, column, numbers, SIZE, MPI_INT, MPI_COMM_WORLD);
    show("Alltoall", numbers, SIZE * SIZE);
    MPI_Alltoall(MPI_IN_PLACE, 0, MPI_DATATYPE_NULL, matrix, 1, column, MPI_COMM_WORLD);
    show("Alltoall in place", matrix[0], SIZE * SIZE);
    MPI_Alltoallv(matrix, ones, steps, column, numbers, rows, places, MPI_INT, MPI_COMM_WORLD);
    show("Alltoallv", numbers, SIZE * SIZE);
    MPI_Alltoallw(matrix, ones, bytes, columns, numbers, rows, starts, ints, MPI_COMM_WORLD);
    show("Alltoallw", numbers, SIZE * SIZE);
}

int main(int argc, char *argv[])
{
    MPI_Datatype vector, column;

    MPI_Init(&argc, &argv);
    MPI_Comm_rank(MPI_COMM_WORLD, &rank);
    MPI_Type_vector(SIZE, 1, SIZE, MPI_INT, &vector);
    MPI_Type_create_resized(vector, 0, sizeof(int), &column);
    MPI_Type_commit(&column);
    fill();
    rooted(column);
    everybody(column);
    MPI_Type_free(&vector);
    MPI_Type_free(&column);
    MPI_Finalize();
    return 0;
}
