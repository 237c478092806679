#include <mpi.h>
#include <stdio.h>

/* A nonblocking sum is under way while a number is shared; odd ranks begin it before, even ones after. */
int main(int argc, char **argv)
{
    int rank, n = 0, mine, sum;
    MPI_Request request;

    MPI_Init(&argc, &argv);
    MPI_Comm_rank(MPI_COMM_WORLD, &rank);
    mine = rank + 1;
    if (rank == 0)
        n = 5;
#ifndef RIGHT
    if (rank % 2) {
        MPI_Iallreduce(&mine, &sum, 1, MPI_INT, MPI_SUM, MPI_COMM_WORLD, &request);
        MPI_Bcast(&n, 1, MPI_INT, 0, MPI_COMM_WORLD);
    } else
#endif
    {
        MPI_Bcast(&n, 1, MPI_INT, 0, MPI_COMM_WORLD);
        MPI_Iallreduce(&mine, &sum, 1, MPI_INT, MPI_SUM, MPI_COMM_WORLD, &request);
    }
    MPI_Wait(&request, MPI_STATUS_IGNORE);
    printf("%d times %d\n", n, sum);
    MPI_Finalize();
    return 0;
}
