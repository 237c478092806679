/* shift.c, fixed: rank 0 sends first, so the cycle is broken there.

   c/rvmc-cc -n 3 -o shift_mended.image c/course/shift_mended.c */
#include <mpi.h>
#include <stdio.h>

enum { TAG = 7 };

/* gives a number to the right, and returns the one that comes from the left */
static int shift(int mine, int rank, int size)
{
    int got, left = (rank + size - 1) % size, right = (rank + 1) % size;

    if (rank == 0)
        MPI_Send(&mine, 1, MPI_INT, right, TAG, MPI_COMM_WORLD);
    MPI_Recv(&got, 1, MPI_INT, left, TAG, MPI_COMM_WORLD, MPI_STATUS_IGNORE);
    if (rank != 0)
        MPI_Send(&mine, 1, MPI_INT, right, TAG, MPI_COMM_WORLD);
    return got;
}

int main(int argc, char **argv)
{
    int rank, size, got;

    MPI_Init(&argc, &argv);
    MPI_Comm_rank(MPI_COMM_WORLD, &rank);
    MPI_Comm_size(MPI_COMM_WORLD, &size);
    got = shift(10 * rank, rank, size);
    printf("rank %d got %d\n", rank, got);
    MPI_Finalize();
    return 0;
}
