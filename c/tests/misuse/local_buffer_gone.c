#include <mpi.h>
#include <stdio.h>

static void begin(MPI_Request *request)
{
    int local = 4;

    MPI_Isend(&local, 1, MPI_INT, 1, 7, MPI_COMM_WORLD, request); /* A */
}

static int use_stack(int n)
{
    char text[64];

    sprintf(text, "%60d", n); /* B */
    return text[59] - '0';
}

int main(int argc, char **argv)
{
    int rank;
    int number = 0;
    MPI_Request request;

    MPI_Init(&argc, &argv);
    MPI_Comm_rank(MPI_COMM_WORLD, &rank);
    if (rank == 0) {
        begin(&request);
        number = use_stack(5);
        MPI_Wait(&request, MPI_STATUS_IGNORE);
    } else {
        MPI_Recv(&number, 1, MPI_INT, 0, 7, MPI_COMM_WORLD, MPI_STATUS_IGNORE);
    }
    printf("rank %d has %d\n", rank, number);
    MPI_Finalize();
    return 0;
}
