#include <mpi.h>
#include <stdlib.h>

/* What sends and never waits for its receive: buffered sends, those to no process, and what MPI's own calls send. */
#ifndef COUNT
#define COUNT 50000
#endif

static int out[COUNT], in[COUNT];

int main(int argc, char **argv)
{
    int rank, other, room = COUNT * sizeof *out + MPI_BSEND_OVERHEAD, all[2];
    void *buffer = malloc(room);
    MPI_Comm both;
    MPI_Request request;

    MPI_Init(&argc, &argv);
    MPI_Comm_rank(MPI_COMM_WORLD, &rank);
    other = 1 - rank;
    out[COUNT - 1] = rank;
    MPI_Buffer_attach(buffer, room);
    MPI_Bsend(out, COUNT, MPI_INT, other, 1, MPI_COMM_WORLD);
    MPI_Recv(in, COUNT, MPI_INT, other, 1, MPI_COMM_WORLD, MPI_STATUS_IGNORE);
    MPI_Buffer_detach(&buffer, &room);
    MPI_Send(out, COUNT, MPI_INT, MPI_PROC_NULL, 2, MPI_COMM_WORLD);
    MPI_Isend(out, COUNT, MPI_INT, MPI_PROC_NULL, 2, MPI_COMM_WORLD, &request);
    MPI_Wait(&request, MPI_STATUS_IGNORE);
    MPI_Sendrecv(out, COUNT, MPI_INT, other, 3, in, COUNT, MPI_INT, other, 3, MPI_COMM_WORLD, MPI_STATUS_IGNORE);
    MPI_Comm_split(MPI_COMM_WORLD, 0, other, &both);
    MPI_Ibcast(out, COUNT, MPI_INT, 0, both, &request);
    MPI_Allgather(&rank, 1, MPI_INT, all, 1, MPI_INT, both);
    MPI_Wait(&request, MPI_STATUS_IGNORE);
    MPI_Comm_free(&both);
    MPI_Finalize();
    return in[COUNT - 1] != other || out[COUNT - 1] != 1 || all[0] != 1;
}
