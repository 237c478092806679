#include <mpi.h>

/* ints of a message: 200,000 bytes, which MPICH doesn't buffer */
#ifndef COUNT
#define COUNT 50000
#endif

static int out[COUNT], in[COUNT];

/* Each rank claims the other's message, and receives it only behind the wait for its own send. */
int main(int argc, char **argv)
{
    int rank;
    MPI_Message message;
    MPI_Request request;

    MPI_Init(&argc, &argv);
    MPI_Comm_rank(MPI_COMM_WORLD, &rank);
    out[COUNT - 1] = rank;
    MPI_Isend(out, COUNT, MPI_INT, 1 - rank, 7, MPI_COMM_WORLD, &request);
    MPI_Mprobe(1 - rank, 7, MPI_COMM_WORLD, &message, MPI_STATUS_IGNORE);
    MPI_Wait(&request, MPI_STATUS_IGNORE);
    MPI_Mrecv(in, COUNT, MPI_INT, &message, MPI_STATUS_IGNORE);
    MPI_Finalize();
    return in[COUNT - 1] != 1 - rank;
}
