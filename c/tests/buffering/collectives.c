#include <mpi.h>

/* ints of a message: 200,000 bytes, which MPICH doesn't buffer */
#ifndef COUNT
#define COUNT 50000
#endif

static int out[COUNT], in[COUNT], part[COUNT / 4];

int main(int argc, char **argv)
{
    int rank;

    MPI_Init(&argc, &argv);
    MPI_Comm_rank(MPI_COMM_WORLD, &rank);
    out[COUNT - 1] = rank;
    MPI_Allreduce(&rank, part, 1, MPI_INT, MPI_SUM, MPI_COMM_WORLD);
    MPI_Alltoall(out, COUNT / 4, MPI_INT, in, COUNT / 4, MPI_INT, MPI_COMM_WORLD);
    MPI_Scatter(in, COUNT / 4, MPI_INT, part, COUNT / 4, MPI_INT, 1, MPI_COMM_WORLD);
    MPI_Bcast(out, COUNT, MPI_INT, 1, MPI_COMM_WORLD);
    MPI_Barrier(MPI_COMM_WORLD);
    MPI_Finalize();
    return out[COUNT - 1] != 1;
}
