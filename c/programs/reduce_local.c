/* MPI_Reduce_local: an operation on two arrays of one rank, as a library over MPI uses it, and MPI_Op_commutative.

   c/rvmc-cc -n 1 -o reduce_local.image c/programs/reduce_local.c && rvmc run < reduce_local.image */
#include <mpi.h>
#include <stdio.h>

static void average(void *in, void *inout, int *count, MPI_Datatype *type)
{
    const double *a = in;
    double *b = inout;

    if (*type != MPI_DOUBLE)
        printf("WRONG type\n");
    for (int i = 0; i < *count; i++)
        b[i] = (a[i] + b[i]) / 2;
}

static void first(void *in, void *inout, int *count, MPI_Datatype *type)
{
    (void)type;
    for (int i = 0; i < *count; i++)
        ((int *)inout)[i] = ((int *)in)[i];
}

static void commutes(const char *name, MPI_Op op)
{
    int flag = -1;

    MPI_Op_commutative(op, &flag);
    printf("%s commutes: %d\n", name, flag);
}

int main(int argc, char *argv[])
{
    int a[4] = {1, -2, 3, 12}, b[4] = {5, 6, -7, 10};
    double x[2] = {1.0, 2.5}, y[2] = {4.0, 0.5};
    struct { float value; int place; } p[1] = {{3.5f, 1}}, q[1] = {{2.0f, 9}};
    MPI_Op mean, left;

    MPI_Init(&argc, &argv);
    MPI_Reduce_local(a, b, 4, MPI_INT, MPI_SUM);
    printf("SUM %d %d %d %d\n", b[0], b[1], b[2], b[3]);
    MPI_Reduce_local(a, b, 4, MPI_INT, MPI_MAX);
    printf("MAX %d %d %d %d\n", b[0], b[1], b[2], b[3]);
    MPI_Reduce_local(a, b, 4, MPI_INT, MPI_BXOR);
    printf("BXOR %d %d %d %d\n", b[0], b[1], b[2], b[3]);
    MPI_Reduce_local(a, b, 0, MPI_INT, MPI_PROD);
    printf("none %d %d %d %d\n", b[0], b[1], b[2], b[3]);
    MPI_Reduce_local(p, q, 1, MPI_FLOAT_INT, MPI_MAXLOC);
    printf("MAXLOC %g at %d\n", q[0].value, q[0].place);

    MPI_Op_create(average, 1, &mean);
    MPI_Op_create(first, 0, &left);
    MPI_Reduce_local(x, y, 2, MPI_DOUBLE, mean);
    printf("average %g %g\n", y[0], y[1]);
    MPI_Reduce_local(a, b, 4, MPI_INT, left);
    printf("first %d %d %d %d\n", b[0], b[1], b[2], b[3]);
    commutes("SUM", MPI_SUM);
    commutes("average", mean);
    commutes("first", left);
    MPI_Op_free(&mean);
    MPI_Op_free(&left);
    printf("freed: %s\n", mean == MPI_OP_NULL && left == MPI_OP_NULL ? "null" : "WRONG");
    MPI_Finalize();
    return 0;
}
