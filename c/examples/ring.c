/* A number goes once round a ring of ranks, and each adds its own. Rank 0 sends first and receives last, all
   others receive first: so the number is at one place at a time, and each rank waits for the one before it.

   c/rvmc-cc -n 4 -o ring.image c/examples/ring.c && rvmc run < ring.image */
#include <mpi.h>
#include <stdio.h>

enum { TAG = 1 };

/* receives the number from the rank before, and tells it */
static int take(int rank, int size)
{
    int sum, source = (rank + size - 1) % size;

    MPI_Recv(&sum, 1, MPI_INT, source, TAG, MPI_COMM_WORLD, MPI_STATUS_IGNORE);
    printf("rank %d got %d from rank %d\n", rank, sum, source);
    return sum;
}

static void give(int sum, int rank, int size)
{
    MPI_Send(&sum, 1, MPI_INT, (rank + 1) % size, TAG, MPI_COMM_WORLD);
}

int main(int argc, char **argv)
{
    int rank, size;

    MPI_Init(&argc, &argv);
    MPI_Comm_rank(MPI_COMM_WORLD, &rank);
    MPI_Comm_size(MPI_COMM_WORLD, &size);
    if (rank == 0) {
        give(100, rank, size);
        take(rank, size);
    } else {
        give(take(rank, size) + rank, rank, size);
    }
    MPI_Finalize();
    return 0;
}
