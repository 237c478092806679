#include <mpi.h>

/* ints of a message: 200,000 bytes, which MPICH doesn't buffer */
#ifndef COUNT
#define COUNT 50000
#endif

static int out[COUNT], in[COUNT];

int main(int argc, char **argv)
{
    int rank;
    MPI_Request requests[2];

    MPI_Init(&argc, &argv);
    MPI_Comm_rank(MPI_COMM_WORLD, &rank);
    out[COUNT - 1] = rank;
    MPI_Send_init(out, COUNT, MPI_INT, 1 - rank, 7, MPI_COMM_WORLD, requests);
    MPI_Recv_init(in, COUNT, MPI_INT, 1 - rank, 7, MPI_COMM_WORLD, requests + 1);
    for (int i = 0; i < 2; i++) {
        MPI_Startall(2, requests);
        MPI_Waitall(2, requests, MPI_STATUSES_IGNORE);
    }
    MPI_Request_free(requests);
    MPI_Request_free(requests + 1);
    MPI_Finalize();
    return in[COUNT - 1] != 1 - rank;
}
