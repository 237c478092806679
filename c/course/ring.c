/* A number goes once round a ring of four ranks, and each adds its own. Rank 0 begins and ends the round.

   c/rvmc-cc -n 4 -o ring.image c/course/ring.c */
#include <mpi.h>
#include <stdio.h>

enum { TAG = 1 };

int main(int argc, char **argv)
{
    int rank, size, left, right, sum = 100;

    MPI_Init(&argc, &argv);
    MPI_Comm_rank(MPI_COMM_WORLD, &rank);
    MPI_Comm_size(MPI_COMM_WORLD, &size);
    left = (rank + size - 1) % size;
    right = (rank + 1) % size;
    if (rank == 0) {
        MPI_Send(&sum, 1, MPI_INT, right, TAG, MPI_COMM_WORLD);
        MPI_Recv(&sum, 1, MPI_INT, left, TAG, MPI_COMM_WORLD, MPI_STATUS_IGNORE);
        printf("round: %d\n", sum);
    } else {
        MPI_Recv(&sum, 1, MPI_INT, left, TAG, MPI_COMM_WORLD, MPI_STATUS_IGNORE);
        sum += rank;
        MPI_Send(&sum, 1, MPI_INT, right, TAG, MPI_COMM_WORLD);
    }
    MPI_Finalize();
    return 0;
}
