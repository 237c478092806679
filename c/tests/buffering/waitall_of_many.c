#include <mpi.h>

/* ints of a message */
#ifndef COUNT
#define COUNT 2
#endif

/* messages that rank 0 waits for together with its own send */
#define MANY 100

static int out[COUNT], in[MANY][COUNT];

/* Rank 0 waits in one call for its send and for many messages that have come, and rank 1 for a message that rank 0 sends behind
   that call. */
int main(int argc, char **argv)
{
    int rank, n;
    MPI_Request requests[MANY + 1];

    MPI_Init(&argc, &argv);
    MPI_Comm_rank(MPI_COMM_WORLD, &rank);
    out[COUNT - 1] = rank;
    if (rank == 0) {
        for (n = 0; n < MANY; n++)
            MPI_Irecv(in[n], COUNT, MPI_INT, 1, 9, MPI_COMM_WORLD, requests + n);
        MPI_Isend(out, COUNT, MPI_INT, 1, 7, MPI_COMM_WORLD, requests + MANY);
        MPI_Waitall(MANY + 1, requests, MPI_STATUSES_IGNORE);
        MPI_Send(out, COUNT, MPI_INT, 1, 8, MPI_COMM_WORLD);
    } else {
        for (n = 0; n < MANY; n++)
            MPI_Send(out, COUNT, MPI_INT, 0, 9, MPI_COMM_WORLD);
        MPI_Recv(in[0], COUNT, MPI_INT, 0, 8, MPI_COMM_WORLD, MPI_STATUS_IGNORE);
        MPI_Recv(in[MANY - 1], COUNT, MPI_INT, 0, 7, MPI_COMM_WORLD, MPI_STATUS_IGNORE);
    }
    MPI_Finalize();
    return in[MANY - 1][COUNT - 1] != 1 - rank;
}
