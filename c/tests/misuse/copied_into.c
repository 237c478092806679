#include <mpi.h>
#include <stdio.h>
#include <string.h>

int main(int argc, char **argv)
{
    int rank;
    char text[16] = "none", other[16] = "other";
    MPI_Request request;

    MPI_Init(&argc, &argv);
    MPI_Comm_rank(MPI_COMM_WORLD, &rank);
    if (rank == 0) {
        MPI_Isend(text, 16, MPI_CHAR, 1, 7, MPI_COMM_WORLD, &request); /* A */
        strcpy(text, other); /* B */
        MPI_Wait(&request, MPI_STATUS_IGNORE);
    } else {
        MPI_Recv(text, 16, MPI_CHAR, 0, 7, MPI_COMM_WORLD, MPI_STATUS_IGNORE);
    }
    printf("rank %d has %s\n", rank, text);
    MPI_Finalize();
    return 0;
}
