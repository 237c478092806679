#include <mpi.h>

/* ints of a message: 200,000 bytes, which MPICH doesn't buffer */
#ifndef COUNT
#define COUNT 50000
#endif

static int out[COUNT], in[COUNT], above[COUNT];

int main(int argc, char **argv)
{
    int rank, size, next, last;
    MPI_Request requests[2];

    MPI_Init(&argc, &argv);
    MPI_Comm_rank(MPI_COMM_WORLD, &rank);
    MPI_Comm_size(MPI_COMM_WORLD, &size);
    next = (rank + 1) % size;
    last = (rank + size - 1) % size;
    out[COUNT - 1] = rank;
    MPI_Isend(out, COUNT, MPI_INT, next, 1, MPI_COMM_WORLD, requests);
    MPI_Isend(out, COUNT, MPI_INT, last, 2, MPI_COMM_WORLD, requests + 1);
    MPI_Waitall(2, requests, MPI_STATUSES_IGNORE);
    MPI_Recv(in, COUNT, MPI_INT, last, 1, MPI_COMM_WORLD, MPI_STATUS_IGNORE);
    MPI_Recv(above, COUNT, MPI_INT, next, 2, MPI_COMM_WORLD, MPI_STATUS_IGNORE);
    MPI_Finalize();
    return in[COUNT - 1] != last || above[COUNT - 1] != next;
}
