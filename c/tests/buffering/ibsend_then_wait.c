#include <mpi.h>

/* ints of a message: 200,000 bytes, which MPICH doesn't buffer */
#ifndef COUNT
#define COUNT 50000
#endif

static int out[COUNT], in[COUNT];

int main(int argc, char **argv)
{
    static char buffer[COUNT * sizeof(int) + MPI_BSEND_OVERHEAD];
    int rank, room;
    void *place;
    MPI_Request request;

    MPI_Init(&argc, &argv);
    MPI_Comm_rank(MPI_COMM_WORLD, &rank);
    out[COUNT - 1] = rank;
    MPI_Buffer_attach(buffer, sizeof buffer);
    MPI_Ibsend(out, COUNT, MPI_INT, 1 - rank, 7, MPI_COMM_WORLD, &request);
    MPI_Wait(&request, MPI_STATUS_IGNORE);
    MPI_Recv(in, COUNT, MPI_INT, 1 - rank, 7, MPI_COMM_WORLD, MPI_STATUS_IGNORE);
    MPI_Buffer_detach(&place, &room);
    MPI_Finalize();
    return in[COUNT - 1] != 1 - rank;
}
