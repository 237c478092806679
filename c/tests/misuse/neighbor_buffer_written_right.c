#include <mpi.h>
#include <stdio.h>

int main(int argc, char **argv)
{
    int rank;
    int size = 3;
    int no = 0;
    int mine = 0;
    int in[2] = {-1, -1};
    MPI_Comm line;
    MPI_Request request;

    MPI_Init(&argc, &argv);
    MPI_Comm_rank(MPI_COMM_WORLD, &rank);
    MPI_Cart_create(MPI_COMM_WORLD, 1, &size, &no, 0, &line);
    MPI_Neighbor_allgather_init(&mine, 1, MPI_INT, in, 1, MPI_INT, line, MPI_INFO_NULL, &request); /* A */
    for (int i = 1; i < 3; i++) {
        mine = 10 * i + rank;
        MPI_Start(&request);
        MPI_Wait(&request, MPI_STATUS_IGNORE);
    }
    printf("rank %d has %d and %d\n", rank, in[0], in[1]);
    MPI_Request_free(&request);
    MPI_Comm_free(&line);
    MPI_Finalize();
    return 0;
}
