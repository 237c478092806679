#include <mpi.h>

/* ints of memory: ten of each twenty are sent, 20,000 bytes, which MPICH doesn't buffer */
#ifndef COUNT
#define COUNT 10000
#endif

static int out[COUNT], in[COUNT];

int main(int argc, char **argv)
{
    int rank;
    MPI_Datatype column;
    MPI_Request request;

    MPI_Init(&argc, &argv);
    MPI_Comm_rank(MPI_COMM_WORLD, &rank);
    out[COUNT - 11] = rank;
    MPI_Type_vector(COUNT / 20, 10, 20, MPI_INT, &column);
    MPI_Type_commit(&column);
    MPI_Isend(out, 1, column, 1 - rank, 7, MPI_COMM_WORLD, &request);
    MPI_Wait(&request, MPI_STATUS_IGNORE);
    MPI_Recv(in, 1, column, 1 - rank, 7, MPI_COMM_WORLD, MPI_STATUS_IGNORE);
    MPI_Type_free(&column);
    MPI_Finalize();
    return in[COUNT - 11] != 1 - rank;
}
