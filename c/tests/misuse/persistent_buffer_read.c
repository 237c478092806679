#include <mpi.h>
#include <stdio.h>

int main(int argc, char **argv)
{
    int rank;
    int number = 0;
    MPI_Request request;

    MPI_Init(&argc, &argv);
    MPI_Comm_rank(MPI_COMM_WORLD, &rank);
    if (rank == 0) {
        for (int i = 1; i < 3; i++)
            MPI_Send(&i, 1, MPI_INT, 1, 7, MPI_COMM_WORLD);
    } else {
        MPI_Recv_init(&number, 1, MPI_INT, 0, 7, MPI_COMM_WORLD, &request); /* A */
        for (int i = 1; i < 3; i++) {
            MPI_Start(&request);
            printf("%d is there\n", number); /* B */
            MPI_Wait(&request, MPI_STATUS_IGNORE);
        }
        MPI_Request_free(&request);
    }
    MPI_Finalize();
    return 0;
}
