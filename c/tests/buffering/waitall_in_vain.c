#include <mpi.h>

/* ints of a message: 200,000 bytes, which MPICH doesn't buffer */
#ifndef COUNT
#define COUNT 50000
#endif

static int out[COUNT], in[COUNT];

/* Rank 0 waits for its send and for a message that nobody sends. So it is stuck whether its send waits or not, and so is rank 1. */
int main(int argc, char **argv)
{
    int rank;
    MPI_Request requests[2];

    MPI_Init(&argc, &argv);
    MPI_Comm_rank(MPI_COMM_WORLD, &rank);
    out[COUNT - 1] = rank;
    if (rank == 0) {
        MPI_Isend(out, COUNT, MPI_INT, 1, 7, MPI_COMM_WORLD, requests);
        MPI_Irecv(in, COUNT, MPI_INT, 1, 8, MPI_COMM_WORLD, requests + 1);
        MPI_Waitall(2, requests, MPI_STATUSES_IGNORE);
        MPI_Send(out, COUNT, MPI_INT, 1, 9, MPI_COMM_WORLD);
    } else {
        MPI_Recv(in, COUNT, MPI_INT, 0, 9, MPI_COMM_WORLD, MPI_STATUS_IGNORE);
        MPI_Recv(in, COUNT, MPI_INT, 0, 7, MPI_COMM_WORLD, MPI_STATUS_IGNORE);
    }
    MPI_Finalize();
    return in[COUNT - 1] != 1 - rank;
}
