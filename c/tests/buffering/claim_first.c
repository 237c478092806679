#include <mpi.h>

/* ints of a message: 200,000 bytes, which MPICH doesn't buffer */
#ifndef COUNT
#define COUNT 50000
#endif

static int out[COUNT], in[COUNT];

/* Rank 0 claims what rank 1 sends, and receives it only behind its own send. */
int main(int argc, char **argv)
{
    int rank;
    MPI_Message message;

    MPI_Init(&argc, &argv);
    MPI_Comm_rank(MPI_COMM_WORLD, &rank);
    out[COUNT - 1] = rank;
    if (rank == 0) {
        MPI_Mprobe(1, 7, MPI_COMM_WORLD, &message, MPI_STATUS_IGNORE);
        MPI_Send(out, COUNT, MPI_INT, 1, 7, MPI_COMM_WORLD);
        MPI_Mrecv(in, COUNT, MPI_INT, &message, MPI_STATUS_IGNORE);
    } else {
        MPI_Send(out, COUNT, MPI_INT, 0, 7, MPI_COMM_WORLD);
        MPI_Recv(in, COUNT, MPI_INT, 0, 7, MPI_COMM_WORLD, MPI_STATUS_IGNORE);
    }
    MPI_Finalize();
    return in[COUNT - 1] != 1 - rank;
}
