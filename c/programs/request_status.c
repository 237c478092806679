/* MPI_Request_get_status tells whether a request is complete, and leaves it as it is.

   c/rvmc-cc -n 2 -o request_status.image c/programs/request_status.c && rvmc run < request_status.image */
#include <mpi.h>
#include <stdio.h>

int main(int argc, char *argv[])
{
    int rank, number = 0, flag = -1, count = -1, again;
    MPI_Request request = MPI_REQUEST_NULL;
    MPI_Status status;

    MPI_Init(&argc, &argv);
    MPI_Comm_rank(MPI_COMM_WORLD, &rank);
    if (rank == 0) {
        MPI_Barrier(MPI_COMM_WORLD);
        number = 42;
        MPI_Send(&number, 1, MPI_INT, 1, 5, MPI_COMM_WORLD);
    } else {
        MPI_Request_get_status(request, &flag, &status);
        printf("null: %d\n", flag);
        MPI_Irecv(&number, 1, MPI_INT, MPI_ANY_SOURCE, MPI_ANY_TAG, MPI_COMM_WORLD, &request);
        MPI_Request_get_status(request, &flag, MPI_STATUS_IGNORE);
        printf("before the send: %d\n", flag);
        MPI_Barrier(MPI_COMM_WORLD);
        do
            MPI_Request_get_status(request, &flag, &status);
        while (!flag);
        MPI_Get_count(&status, MPI_INT, &count);
        printf("complete: %d from %d by tag %d, count %d, request %s\n", number, status.MPI_SOURCE, status.MPI_TAG, count,
               request == MPI_REQUEST_NULL ? "WRONG" : "still there");
        MPI_Request_get_status(request, &again, &status);
        printf("asked again: %d by tag %d\n", again, status.MPI_TAG);
        MPI_Test(&request, &flag, &status);
        printf("tested: %d by tag %d, request %s\n", flag, status.MPI_TAG, request == MPI_REQUEST_NULL ? "null" : "WRONG");
    }
    MPI_Finalize();
    return 0;
}
