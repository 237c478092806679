#include <mpi.h>

/* ints of a message: 200,000 bytes, which MPICH doesn't buffer */
#ifndef COUNT
#define COUNT 50000
#endif

static int out[COUNT], in[COUNT], above[COUNT];

int main(int argc, char **argv)
{
    int rank, size, up, down;

    MPI_Init(&argc, &argv);
    MPI_Comm_rank(MPI_COMM_WORLD, &rank);
    MPI_Comm_size(MPI_COMM_WORLD, &size);
    up = rank > 0 ? rank - 1 : size - 1;
    down = rank < size - 1 ? rank + 1 : 0;
    out[COUNT - 1] = rank;
    for (int step = 0; step < 2; step++) {
        MPI_Send(out, COUNT, MPI_INT, up, 1, MPI_COMM_WORLD);
        MPI_Send(out, COUNT, MPI_INT, down, 2, MPI_COMM_WORLD);
        MPI_Recv(in, COUNT, MPI_INT, down, 1, MPI_COMM_WORLD, MPI_STATUS_IGNORE);
        MPI_Recv(above, COUNT, MPI_INT, up, 2, MPI_COMM_WORLD, MPI_STATUS_IGNORE);
    }
    MPI_Finalize();
    return in[COUNT - 1] != down || above[COUNT - 1] != up;
}
