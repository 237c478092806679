/* A send is cancelled, and may or may not be: what the status tells decides whether the other rank waits for it.

   c/rvmc-cc -n 2 -o cancel_send.image c/programs/cancel_send.c && rvmc run < cancel_send.image */
#include <mpi.h>
#include <stdio.h>

int main(int argc, char *argv[])
{
    int rank, number = 3, cancelled = -1;
    MPI_Request request;
    MPI_Status status;

    MPI_Init(&argc, &argv);
    MPI_Comm_rank(MPI_COMM_WORLD, &rank);
    for (int mode = 0; mode < 2; mode++) {
        if (rank == 0) {
            if (mode == 0)
                MPI_Isend(&number, 1, MPI_INT, 1, 1, MPI_COMM_WORLD, &request);
            else
                MPI_Issend(&number, 1, MPI_INT, 1, 1, MPI_COMM_WORLD, &request);
            MPI_Cancel(&request);
            MPI_Barrier(MPI_COMM_WORLD);
            /* the receiver has to know before the send is waited for, which may go on until it receives */
            cancelled = 0;
            if (mode == 0) {
                MPI_Wait(&request, &status);
                MPI_Test_cancelled(&status, &cancelled);
            }
            MPI_Send(&cancelled, 1, MPI_INT, 1, 2, MPI_COMM_WORLD);
            if (mode == 1) {
                MPI_Wait(&request, &status);
                MPI_Test_cancelled(&status, &cancelled);
            }
            printf("cancelled: %s\n", cancelled ? "yes" : "no");
        } else {
            MPI_Barrier(MPI_COMM_WORLD);
            MPI_Recv(&cancelled, 1, MPI_INT, 0, 2, MPI_COMM_WORLD, &status);
            if (!cancelled)
                MPI_Recv(&number, 1, MPI_INT, 0, 1, MPI_COMM_WORLD, &status);
            printf("%s\n", cancelled ? "nothing comes" : "the message came");
        }
        number++;
    }
    MPI_Finalize();
    return 0;
}
