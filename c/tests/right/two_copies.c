/* two_copies.c: two broadcasts in two copies of a communicator. Wrong: the ranks call them in different orders. Each root goes on
   before the other rank has called, so this ends if a broadcast doesn't wait. */
#include <mpi.h>
#include <stdio.h>

int main(int argc, char **argv)
{
    int rank, x = 0, y = 0;
    MPI_Comm a, b;

    MPI_Init(&argc, &argv);
    MPI_Comm_rank(MPI_COMM_WORLD, &rank);
#ifdef IDUP
    MPI_Request requests[2];
    MPI_Comm_idup(MPI_COMM_WORLD, &a, &requests[0]);
    MPI_Comm_idup(MPI_COMM_WORLD, &b, &requests[1]);
    MPI_Waitall(2, requests, MPI_STATUSES_IGNORE);
#else
    MPI_Comm_dup(MPI_COMM_WORLD, &a);
    MPI_Comm_dup(MPI_COMM_WORLD, &b);
#endif
    if (rank == 0)
        x = 1;
    else
        y = 2;
#ifdef RIGHT
    MPI_Bcast(&x, 1, MPI_INT, 0, a);
    MPI_Bcast(&y, 1, MPI_INT, 1, b);
#else
    if (rank == 0) {
        MPI_Bcast(&x, 1, MPI_INT, 0, a);
        MPI_Bcast(&y, 1, MPI_INT, 1, b);
    } else {
        MPI_Bcast(&y, 1, MPI_INT, 1, b);
        MPI_Bcast(&x, 1, MPI_INT, 0, a);
    }
#endif
    printf("%d %d\n", x, y);
    MPI_Comm_free(&a);
    MPI_Comm_free(&b);
    MPI_Finalize();
    return 0;
}
