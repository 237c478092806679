/* Rank 0 sends in MPI_COMM_WORLD what rank 1 receives in a communicator of its own, but with RIGHT. */
#include <mpi.h>
#include <stdio.h>

#ifdef RIGHT
#define THERE MPI_COMM_WORLD
#else
#define THERE other
#endif

int main(void)
{
    int rank, x = 1;
    MPI_Comm other;

    MPI_Init(NULL, NULL);
    MPI_Comm_rank(MPI_COMM_WORLD, &rank);
    MPI_Comm_dup(MPI_COMM_WORLD, &other);
#ifdef NAME
    MPI_Comm_set_name(other, "twins");
#endif
    if (rank == 0)
        MPI_Send(&x, 1, MPI_INT, 1, 7, MPI_COMM_WORLD);
    else
        MPI_Recv(&x, 1, MPI_INT, 0, 7, THERE, MPI_STATUS_IGNORE);
    printf("got %d\n", x);
#ifndef LEAK
    MPI_Comm_free(&other);
#endif
    MPI_Finalize();
    return 0;
}
