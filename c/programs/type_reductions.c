/* Structs reduced by an operation of the program's own, which doesn't commute: products of matrices, with a word that counts
   them, and a gap that stays as it is.

   c/rvmc-cc -n 5 -o type_reductions.image c/programs/type_reductions.c && rvmc run < type_reductions.image */
#include <mpi.h>
#include <stddef.h>
#include <stdio.h>
#include <stdlib.h>

struct product {
    long cells[2][2];
    int gap;
    int factors;
};

static MPI_Datatype type;
static MPI_Op multiply;
static int rank;

static void multiplied(void *left, void *right, int *length, MPI_Datatype *given)
{
    struct product *x = left, *y = right;

    if (*given != type)
        abort();
    for (int n = 0; n < *length; n++) {
        struct product z = {{{0}}, y[n].gap, x[n].factors + y[n].factors};

        for (int i = 0; i < 2; i++)
            for (int j = 0; j < 2; j++)
                for (int k = 0; k < 2; k++)
                    z.cells[i][j] += x[n].cells[i][k] * y[n].cells[k][j];
        y[n] = z;
    }
}

static void fill(struct product *p, int count)
{
    for (int n = 0; n < count; n++)
        p[n] = (struct product){{{1, rank + 1}, {n, 1}}, -1, 1};
}

static void show(const char *name, const struct product *p, int count)
{
    printf("%s:", name);
    for (int n = 0; n < count; n++)
        printf(" %ld %ld %ld %ld by %d,", p[n].cells[0][0], p[n].cells[0][1], p[n].cells[1][0], p[n].cells[1][1], p[n].factors);
    printf("\n");
}

int main(int argc, char *argv[])
{
    const int lengths[2] = {4, 1}, counts[5] = {1, 0, 2, 1, 1};
    const MPI_Aint places[2] = {offsetof(struct product, cells), offsetof(struct product, factors)};
    const MPI_Datatype types[2] = {MPI_LONG, MPI_INT};
    struct product mine[5], result[5] = {{{{0}}, 0, 0}};
    MPI_Datatype parts;

    MPI_Init(&argc, &argv);
    MPI_Comm_rank(MPI_COMM_WORLD, &rank);
    MPI_Type_create_struct(2, lengths, places, types, &parts);
    MPI_Type_create_resized(parts, 0, sizeof(struct product), &type);
    MPI_Type_commit(&type);
    MPI_Op_create(multiplied, 0, &multiply);
    fill(mine, 5);
    MPI_Reduce(mine, result, 2, type, multiply, 3, MPI_COMM_WORLD);
    show("Reduce", result, 2);
    MPI_Allreduce(mine, result, 2, type, multiply, MPI_COMM_WORLD);
    show("Allreduce", result, 2);
    MPI_Scan(mine, result, 2, type, multiply, MPI_COMM_WORLD);
    show("Scan", result, 2);
    MPI_Exscan(mine, result, 2, type, multiply, MPI_COMM_WORLD);
    if (rank)
        show("Exscan", result, 2);
    MPI_Reduce_scatter(mine, result, counts, type, multiply, MPI_COMM_WORLD);
    show("Reduce_scatter", result, counts[rank]);
    MPI_Reduce_scatter_block(mine, result, 1, type, multiply, MPI_COMM_WORLD);
    show("Reduce_scatter_block", result, 1);
    MPI_Allreduce(MPI_IN_PLACE, mine, 2, type, multiply, MPI_COMM_WORLD);
    show("Allreduce in place", mine, 2);
    MPI_Reduce_local(mine, mine + 2, 1, type, multiply);
    show("Reduce_local", mine + 2, 1);
    MPI_Op_free(&multiply);
    MPI_Type_free(&parts);
    MPI_Type_free(&type);
    MPI_Finalize();
    return 0;
}
