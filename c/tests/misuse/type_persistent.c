#include <mpi.h>
#include <stdio.h>

int main(int argc, char **argv)
{
    int rank;
    int number = 3;
    long got = 0;
    MPI_Request request;

    MPI_Init(&argc, &argv);
    MPI_Comm_rank(MPI_COMM_WORLD, &rank);
    if (rank == 0)
        MPI_Send_init(&number, 1, MPI_INT, 1, 7, MPI_COMM_WORLD, &request);
    else
        MPI_Recv_init(&got, 1, MPI_LONG, 0, 7, MPI_COMM_WORLD, &request); /* B */
    MPI_Start(&request);
    MPI_Wait(&request, MPI_STATUS_IGNORE);
    MPI_Request_free(&request);
    if (rank == 1)
        printf("rank 1 got %ld\n", got);
    MPI_Finalize();
    return 0;
}
