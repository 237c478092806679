#include <mpi.h>
#include <stdio.h>

int main(int argc, char **argv)
{
    int rank;
    int mine, other = 0;
    MPI_Request request;

    MPI_Init(&argc, &argv);
    MPI_Comm_rank(MPI_COMM_WORLD, &rank);
    mine = rank;
    MPI_Irecv(&other, 1, MPI_INT, (rank + 2) % 3, 7, MPI_COMM_WORLD, &request);
    MPI_Send(&mine, 1, MPI_INT, (rank + 1) % 3, 7, MPI_COMM_WORLD); /* A */
    MPI_Wait(&request, MPI_STATUS_IGNORE);
    printf("rank %d has %d\n", rank, other);
    MPI_Finalize();
    return 0;
}
