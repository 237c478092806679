#include <mpi.h>

/* ints of a message: 200,000 bytes, which MPICH doesn't buffer */
#ifndef COUNT
#define COUNT 50000
#endif

static int out[COUNT], in[COUNT];

int main(int argc, char **argv)
{
    int rank;
    MPI_Request receive, send;

    MPI_Init(&argc, &argv);
    MPI_Comm_rank(MPI_COMM_WORLD, &rank);
    out[COUNT - 1] = rank;
    MPI_Irecv(in, COUNT, MPI_INT, 1 - rank, 7, MPI_COMM_WORLD, &receive);
    MPI_Isend(out, COUNT, MPI_INT, 1 - rank, 7, MPI_COMM_WORLD, &send);
    MPI_Wait(&send, MPI_STATUS_IGNORE);
    MPI_Wait(&receive, MPI_STATUS_IGNORE);
    MPI_Finalize();
    return in[COUNT - 1] != 1 - rank;
}
