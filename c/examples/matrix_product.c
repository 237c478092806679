/* Multiplies two matrices that are cut into blocks, one block of each on a rank, by Cannon's algorithm. The
   ranks stand in a square. In each round a rank multiplies the two blocks that it has and adds the product to
   its own block of the result; then the blocks of A move one place to the left and those of B one place up, each
   by an MPI_Sendrecv, which sends and receives at once and so can't deadlock.

   c/rvmc-cc -n 4 -o matrix_product.image c/examples/matrix_product.c && rvmc run < matrix_product.image */
#include <mpi.h>
#include <stdio.h>
#include <string.h>

enum { SIDE = 2, BLOCK = 3, N = SIDE * BLOCK, CELLS = BLOCK * BLOCK, TAG = 1 };

/* the rank at a place of the square, whose edges meet */
static int rank_at(int row, int column)
{
    return (row + SIDE) % SIDE * SIDE + (column + SIDE) % SIDE;
}

/* where cell (i, j) of a whole matrix stands in an array that has the blocks one behind the other */
static int place(int i, int j)
{
    return rank_at(i / BLOCK, j / BLOCK) * CELLS + i % BLOCK * BLOCK + j % BLOCK;
}

static void fill(int *a, int *b)
{
    for (int i = 0; i < N; i++)
        for (int j = 0; j < N; j++) {
            a[place(i, j)] = i + j;
            b[place(i, j)] = i == j ? 2 : i < j ? 1 : 0;
        }
}

/* sends the block to one rank while another's block comes */
static void move(int *block, int to, int from)
{
    int came[CELLS];

    MPI_Sendrecv(block, CELLS, MPI_INT, to, TAG, came, CELLS, MPI_INT, from, TAG, MPI_COMM_WORLD, MPI_STATUS_IGNORE);
    memcpy(block, came, sizeof came);
}

static void add_product(const int *a, const int *b, int *c)
{
    for (int i = 0; i < BLOCK; i++)
        for (int j = 0; j < BLOCK; j++)
            for (int k = 0; k < BLOCK; k++)
                c[i * BLOCK + j] += a[i * BLOCK + k] * b[k * BLOCK + j];
}

static void multiply(int rank, int *a, int *b, int *c)
{
    int row = rank / SIDE, column = rank % SIDE;

    /* row i of A begins i places to the left, column j of B j places up: so the blocks fit in every round */
    move(a, rank_at(row, column - row), rank_at(row, column + row));
    move(b, rank_at(row - column, column), rank_at(row + column, column));
    memset(c, 0, CELLS * sizeof *c);
    for (int round = 0; round < SIDE; round++) {
        add_product(a, b, c);
        move(a, rank_at(row, column - 1), rank_at(row, column + 1));
        move(b, rank_at(row - 1, column), rank_at(row + 1, column));
    }
}

static void show(const int *c)
{
    for (int i = 0; i < N; i++) {
        for (int j = 0; j < N; j++)
            printf("%4d", c[place(i, j)]);
        printf("\n");
    }
}

int main(int argc, char **argv)
{
    int rank, size, a[CELLS], b[CELLS], c[CELLS], all_a[N * N], all_b[N * N], all_c[N * N];

    MPI_Init(&argc, &argv);
    MPI_Comm_rank(MPI_COMM_WORLD, &rank);
    MPI_Comm_size(MPI_COMM_WORLD, &size);
    if (size != SIDE * SIDE) {
        printf("this wants %d ranks, not %d\n", SIDE * SIDE, size);
        MPI_Finalize();
        return 1;
    }
    if (rank == 0)
        fill(all_a, all_b);
    MPI_Scatter(all_a, CELLS, MPI_INT, a, CELLS, MPI_INT, 0, MPI_COMM_WORLD);
    MPI_Scatter(all_b, CELLS, MPI_INT, b, CELLS, MPI_INT, 0, MPI_COMM_WORLD);
    multiply(rank, a, b, c);
    MPI_Gather(c, CELLS, MPI_INT, all_c, CELLS, MPI_INT, 0, MPI_COMM_WORLD);
    if (rank == 0)
        show(all_c);
    MPI_Finalize();
    return 0;
}
