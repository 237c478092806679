#include <mpi.h>
#include <stdio.h>

int main(int argc, char **argv)
{
    int rank;
    int size = 3;
    int yes = 1;
    int out[2];
    int in[2] = {0, 0};
    MPI_Comm ring;
    MPI_Request request;

    MPI_Init(&argc, &argv);
    MPI_Comm_rank(MPI_COMM_WORLD, &rank);
    MPI_Cart_create(MPI_COMM_WORLD, 1, &size, &yes, 0, &ring);
    out[0] = 10 * rank;
    out[1] = 10 * rank + 1;
    MPI_Ineighbor_alltoall(out, 1, MPI_INT, in, 1, MPI_INT, ring, &request); /* A */
    MPI_Wait(&request, MPI_STATUS_IGNORE);
    printf("rank %d has %d and %d\n", rank, in[0], in[1]);
    MPI_Comm_free(&ring);
    MPI_Finalize();
    return 0;
}
