/* An operation of the program's own that doesn't commute: the product of 2 by 2 matrices. MPI has to multiply them in the
   order of the ranks, whatever the root. A second one commutes: the remainder of a product.

   c/rvmc-cc -n 5 -o operation_own.image c/programs/operation_own.c && rvmc run < operation_own.image */
#include <mpi.h>
#include <stdio.h>

/* Matrices are four ints in a row, so a count of 4 n elements is n matrices. */
static void multiply(void *in, void *inout, int *count, MPI_Datatype *type)
{
    const int *a = in;
    int *b = inout;

    (void)type;
    for (int i = 0; i < *count; i += 4, a += 4, b += 4) {
        int c[4] = {a[0] * b[0] + a[1] * b[2], a[0] * b[1] + a[1] * b[3], a[2] * b[0] + a[3] * b[2],
                    a[2] * b[1] + a[3] * b[3]};

        for (int k = 0; k < 4; k++)
            b[k] = c[k];
    }
}

static void modular(void *in, void *inout, int *count, MPI_Datatype *type)
{
    const long *a = in;
    long *b = inout;

    (void)type;
    for (int i = 0; i < *count; i++)
        b[i] = a[i] * b[i] % 1009;
}

static void show(const char *name, const int *m)
{
    printf("%s: %d %d, %d %d\n", name, m[0], m[1], m[2], m[3]);
}

int main(int argc, char *argv[])
{
    int rank, size, mine[4], out[4], parts[32], kept[4];
    long numbers[2], products[2];
    MPI_Op product, remainder;

    MPI_Init(&argc, &argv);
    MPI_Comm_rank(MPI_COMM_WORLD, &rank);
    MPI_Comm_size(MPI_COMM_WORLD, &size);
    MPI_Op_create(multiply, 0, &product);
    MPI_Op_create(modular, 1, &remainder);
    mine[0] = 1;
    mine[1] = rank + 1;
    mine[2] = rank % 2;
    mine[3] = rank % 2 ? rank + 2 : 1;
    for (int root = 0; root < size; root++) {
        MPI_Reduce(mine, out, 4, MPI_INT, product, root, MPI_COMM_WORLD);
        if (rank == root)
            show("Reduce", out);
    }
    MPI_Allreduce(mine, out, 4, MPI_INT, product, MPI_COMM_WORLD);
    show("Allreduce", out);
    MPI_Scan(mine, out, 4, MPI_INT, product, MPI_COMM_WORLD);
    show("Scan", out);
    MPI_Exscan(mine, out, 4, MPI_INT, product, MPI_COMM_WORLD);
    if (rank > 0)
        show("Exscan", out);
    for (int i = 0; i < 4 * size; i++)
        parts[i] = mine[i % 4] + (i % 4 == 1 ? i / 4 : 0);
    MPI_Reduce_scatter_block(parts, kept, 4, MPI_INT, product, MPI_COMM_WORLD);
    show("Reduce_scatter_block", kept);

    numbers[0] = rank + 101;
    numbers[1] = 7 * rank + 3;
    MPI_Allreduce(numbers, products, 2, MPI_LONG, remainder, MPI_COMM_WORLD);
    printf("products modulo 1009: %ld %ld\n", products[0], products[1]);
    MPI_Op_free(&product);
    MPI_Op_free(&remainder);
    MPI_Finalize();
    return 0;
}
