/* Multiplies a matrix of ten rows by a vector on four ranks. Ten rows can't be shared out evenly, so the ranks
   get 3, 3, 2 and 2 of them: MPI_Scatterv and MPI_Gatherv take a count and a place for each rank, MPI_Scatter
   and MPI_Gather would want one count for all.

   c/rvmc-cc -n 4 -o matrix_vector.image c/examples/matrix_vector.c && rvmc run < matrix_vector.image */
#include <mpi.h>
#include <stdio.h>

enum { N = 10, MOST_RANKS = 8 };

/* how many rows each rank has, and which is its first */
static void share_rows(int size, int *counts, int *firsts)
{
    for (int r = 0, first = 0; r < size; r++) {
        counts[r] = N / size + (r < N % size);
        firsts[r] = first;
        first += counts[r];
    }
}

static void fill(int *matrix, int *vector)
{
    for (int i = 0; i < N; i++) {
        vector[i] = i + 1;
        for (int j = 0; j < N; j++)
            matrix[i * N + j] = i == j ? 10 : i - j;
    }
}

static void multiply(const int *rows, int count, const int *vector, int *products)
{
    for (int i = 0; i < count; i++) {
        products[i] = 0;
        for (int j = 0; j < N; j++)
            products[i] += rows[i * N + j] * vector[j];
    }
}

/* shares the rows out, lets each rank multiply its own, and collects the products at rank 0 */
static void multiply_together(int rank, int size, const int *matrix, int *vector, int *products)
{
    int rows[N * N], part[N], counts[MOST_RANKS], firsts[MOST_RANKS], lengths[MOST_RANKS], starts[MOST_RANKS];

    share_rows(size, counts, firsts);
    for (int r = 0; r < size; r++) {
        lengths[r] = counts[r] * N;
        starts[r] = firsts[r] * N;
    }
    MPI_Bcast(vector, N, MPI_INT, 0, MPI_COMM_WORLD);
    MPI_Scatterv(matrix, lengths, starts, MPI_INT, rows, lengths[rank], MPI_INT, 0, MPI_COMM_WORLD);
    printf("rank %d has %d rows from row %d on\n", rank, counts[rank], firsts[rank]);
    multiply(rows, counts[rank], vector, part);
    MPI_Gatherv(part, counts[rank], MPI_INT, products, counts, firsts, MPI_INT, 0, MPI_COMM_WORLD);
}

int main(int argc, char **argv)
{
    int rank, size, matrix[N * N], vector[N], products[N];

    MPI_Init(&argc, &argv);
    MPI_Comm_rank(MPI_COMM_WORLD, &rank);
    MPI_Comm_size(MPI_COMM_WORLD, &size);
    if (rank == 0)
        fill(matrix, vector);
    multiply_together(rank, size, matrix, vector, products);
    if (rank == 0)
        for (int i = 0; i < N; i++)
            printf("y[%d] = %d\n", i, products[i]);
    MPI_Finalize();
    return 0;
}
