/* A synchronous send isn't complete before its message is received: it is asked for in vain until the other rank receives.

   c/rvmc-cc -n 2 -o synchronous.image c/programs/synchronous.c && rvmc run < synchronous.image */
#include <mpi.h>
#include <stdio.h>

int main(int argc, char *argv[])
{
    int rank, number = 7, flag = -1;
    MPI_Request requests[2];
    MPI_Comm world = MPI_COMM_WORLD;

    MPI_Init(&argc, &argv);
    MPI_Comm_rank(world, &rank);
    if (rank == 0)
        MPI_Ssend_init(&number, 1, MPI_INT, 1, 0, world, &requests[1]);
    for (int round = 0; round < 2; round++) {
        number = 7 + round;
        if (rank == 0) {
            MPI_Issend(&number, 1, MPI_INT, 1, 1, world, &requests[0]);
            MPI_Start(&requests[1]);
            for (int i = 0; i < 2; i++) {
                MPI_Test(&requests[i], &flag, MPI_STATUS_IGNORE);
                printf("request %d before the receive: %d\n", i, flag);
            }
            MPI_Barrier(world);
            MPI_Waitall(2, requests, MPI_STATUSES_IGNORE);
            printf("complete: %s, %s\n", requests[0] == MPI_REQUEST_NULL ? "null" : "WRONG",
                   requests[1] == MPI_REQUEST_NULL ? "WRONG" : "inactive");
        } else {
            MPI_Barrier(world);
            for (int tag = 0; tag < 2; tag++) {
                MPI_Recv(&number, 1, MPI_INT, 0, tag, world, MPI_STATUS_IGNORE);
                printf("got %d\n", number);
            }
        }
    }
    if (rank == 0)
        MPI_Request_free(&requests[1]);
    MPI_Finalize();
    return 0;
}
