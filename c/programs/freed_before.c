/* A communicator that is freed while a receive is posted in it: the message comes, and others of new communicators don't get
   in its way.

   c/rvmc-cc -n 2 -o freed_before.image c/programs/freed_before.c && rvmc run < freed_before.image */
#include <mpi.h>
#include <stdio.h>

int main(int argc, char *argv[])
{
    int rank, early = 0, late = 0, value;
    MPI_Comm old, new;
    MPI_Request request = MPI_REQUEST_NULL;
    MPI_Status status;

    MPI_Init(&argc, &argv);
    MPI_Comm_rank(MPI_COMM_WORLD, &rank);
    for (int round = 0; round < 3; round++) {
        MPI_Comm_split(MPI_COMM_WORLD, 0, -rank, &old);
        value = 10 + round;
        if (rank == 0)
            MPI_Irecv(&early, 1, MPI_INT, MPI_ANY_SOURCE, MPI_ANY_TAG, old, &request);
        else
            MPI_Send(&value, 1, MPI_INT, 1, 1, old);
        MPI_Comm_free(&old);
        MPI_Comm_dup(MPI_COMM_WORLD, &new);
        value = 20 + round;
        if (rank == 0) {
            MPI_Recv(&late, 1, MPI_INT, MPI_ANY_SOURCE, MPI_ANY_TAG, new, &status);
            printf("new: %d from %d by tag %d\n", late, status.MPI_SOURCE, status.MPI_TAG);
            MPI_Wait(&request, &status);
            printf("old: %d from %d by tag %d\n", early, status.MPI_SOURCE, status.MPI_TAG);
        } else {
            MPI_Send(&value, 1, MPI_INT, 0, 2, new);
        }
        MPI_Comm_free(&new);
    }
    MPI_Finalize();
    return 0;
}
