/* The transpose of a matrix whose rows are shared out: each rank packs a block for each other rank, MPI_Alltoall exchanges
   the blocks, and each block is turned as it is put in its place. Transposed twice, the matrix is itself again.

   c/rvmc-cc -n 4 -o transpose.image c/programs/transpose.c && rvmc run < transpose.image */
#include <mpi.h>
#include <stdio.h>
#include <stdlib.h>
#include <string.h>

#define BLOCK 3

static void transpose(float *rows, int size)
{
    int n = BLOCK * size;
    float *out = calloc(BLOCK * n, sizeof(float)), *in = calloc(BLOCK * n, sizeof(float));

    for (int r = 0; r < size; r++)
        for (int i = 0; i < BLOCK; i++)
            memcpy(&out[(r * BLOCK + i) * BLOCK], &rows[i * n + r * BLOCK], BLOCK * sizeof(float));
    MPI_Alltoall(out, BLOCK * BLOCK, MPI_FLOAT, in, BLOCK * BLOCK, MPI_FLOAT, MPI_COMM_WORLD);
    for (int r = 0; r < size; r++)
        for (int i = 0; i < BLOCK; i++)
            for (int j = 0; j < BLOCK; j++)
                rows[i * n + r * BLOCK + j] = in[(r * BLOCK + j) * BLOCK + i];
    free(out);
    free(in);
}

int main(int argc, char *argv[])
{
    int rank, size, n, wrong = 0, all_wrong;
    float *rows;

    MPI_Init(&argc, &argv);
    MPI_Comm_rank(MPI_COMM_WORLD, &rank);
    MPI_Comm_size(MPI_COMM_WORLD, &size);
    n = BLOCK * size;
    rows = malloc(BLOCK * n * sizeof(float));
    for (int i = 0; i < BLOCK; i++)
        for (int j = 0; j < n; j++)
            rows[i * n + j] = (float)((rank * BLOCK + i) * 100 + j);

    transpose(rows, size);
    for (int i = 0; i < BLOCK; i++) {
        for (int j = 0; j < n; j++)
            printf(" %4.0f", rows[i * n + j]);
        printf("\n");
    }
    transpose(rows, size);
    for (int i = 0; i < BLOCK; i++)
        for (int j = 0; j < n; j++)
            wrong += rows[i * n + j] != (float)((rank * BLOCK + i) * 100 + j);
    MPI_Allreduce(&wrong, &all_wrong, 1, MPI_INT, MPI_SUM, MPI_COMM_WORLD);
    if (rank == 0)
        printf("%d wrong after two transpositions\n", all_wrong);
    free(rows);
    MPI_Finalize();
    return 0;
}
