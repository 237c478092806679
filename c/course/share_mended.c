/* share.c, fixed: the first `rest` ranks have one number more, and they begin at 0.

   c/rvmc-cc -n 4 -O0 -o share_mended.image c/course/share_mended.c */
#include <mpi.h>
#include <stdio.h>

enum { TAG = 1, NUMBERS = 10 };

int sum, first, count;

int main(int argc, char **argv)
{
    int rank, size, rest;

    MPI_Init(&argc, &argv);
    MPI_Comm_rank(MPI_COMM_WORLD, &rank);
    MPI_Comm_size(MPI_COMM_WORLD, &size);
    rest = NUMBERS % size;
    count = NUMBERS / size + (rank < rest);
    first = NUMBERS / size * rank + (rank < rest ? rank : rest) + 1;
    if (rank > 0)
        MPI_Recv(&sum, 1, MPI_INT, rank - 1, TAG, MPI_COMM_WORLD, MPI_STATUS_IGNORE);
    for (int i = 0; i < count; i++)
        sum += first + i;
    if (rank < size - 1)
        MPI_Send(&sum, 1, MPI_INT, rank + 1, TAG, MPI_COMM_WORLD);
    else
        printf("the sum is %d\n", sum);
    MPI_Finalize();
    return 0;
}
