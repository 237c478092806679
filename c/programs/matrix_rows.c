/* The product of two matrices: rank 0 scatters the rows of the first, broadcasts the second, and gathers the rows of the
   product. It checks them against the product that it works out alone.

   c/rvmc-cc -n 4 -o matrix_rows.image c/programs/matrix_rows.c && rvmc run < matrix_rows.image */
#include <mpi.h>
#include <stdio.h>
#include <stdlib.h>

#define N 12

static void multiply(int rows, const int *a, const int *b, int *c)
{
    for (int i = 0; i < rows; i++)
        for (int j = 0; j < N; j++) {
            int sum = 0;

            for (int k = 0; k < N; k++)
                sum += a[i * N + k] * b[k * N + j];
            c[i * N + j] = sum;
        }
}

int main(int argc, char **argv)
{
    int rank, size, rows, wrong = 0;
    int *a = NULL, *c = NULL, *b, *my_a, *my_c;
    double start, elapsed, longest;

    MPI_Init(&argc, &argv);
    MPI_Comm_rank(MPI_COMM_WORLD, &rank);
    MPI_Comm_size(MPI_COMM_WORLD, &size);
    rows = N / size;
    b = malloc(N * N * sizeof(int));
    my_a = malloc(rows * N * sizeof(int));
    my_c = malloc(rows * N * sizeof(int));
    if (rank == 0) {
        a = malloc(N * N * sizeof(int));
        c = malloc(N * N * sizeof(int));
        srand(1);
        for (int i = 0; i < N * N; i++) {
            a[i] = (i * 7 + 3) % 11 - 5;
            b[i] = (i * 5 + 1) % 13 - 6;
        }
    }

    start = MPI_Wtime();
    MPI_Scatter(a, rows * N, MPI_INT, my_a, rows * N, MPI_INT, 0, MPI_COMM_WORLD);
    MPI_Bcast(b, N * N, MPI_INT, 0, MPI_COMM_WORLD);
    multiply(rows, my_a, b, my_c);
    MPI_Gather(my_c, rows * N, MPI_INT, c, rows * N, MPI_INT, 0, MPI_COMM_WORLD);
    elapsed = MPI_Wtime() - start;
    MPI_Reduce(&elapsed, &longest, 1, MPI_DOUBLE, MPI_MAX, 0, MPI_COMM_WORLD);

    if (rank == 0) {
        int *alone = malloc(N * N * sizeof(int)), trace = 0;

        multiply(N, a, b, alone);
        for (int i = 0; i < N * N; i++)
            wrong += alone[i] != c[i];
        for (int i = 0; i < N; i++)
            trace += c[i * N + i];
        for (int j = 0; j < N; j++)
            printf("%4d", c[j]);
        printf("\ntrace %d, %d wrong, %s\n", trace, wrong, longest > 0.0 ? "took some time" : "took no time");
        free(alone);
        free(a);
        free(c);
    }
    free(b);
    free(my_a);
    free(my_c);
    MPI_Finalize();
    return 0;
}
