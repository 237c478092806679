#include <mpi.h>
#include <stdio.h>

static void larger(void *in, void *inout, int *length, MPI_Datatype *type)
{
    int *from = in, *to = inout;

    (void)type;
    for (int i = 0; i < *length; i++)
        to[i] = from[i] > to[i] ? from[i] : to[i];
}

int main(int argc, char **argv)
{
    int rank;
    int most = 0;
    MPI_Op op;

    MPI_Init(&argc, &argv);
    MPI_Comm_rank(MPI_COMM_WORLD, &rank);
    MPI_Op_create(larger, 1, &op); /* A */
    MPI_Allreduce(&rank, &most, 1, MPI_INT, op, MPI_COMM_WORLD);
    printf("rank %d has %d\n", rank, most);
    MPI_Op_free(&op);
    MPI_Finalize(); /* B */
    return 0;
}
