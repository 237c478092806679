/* Like overlap.c, but rank 1 waits first and works afterwards.

   c/rvmc-cc -n 2 -o blocking.image c/course/blocking.c */
#include <mpi.h>
#include <stdio.h>

enum { TAG = 1 };

/* the sum of the squares of 1 to n, computed the long way */
static int work(int n)
{
    int sum = 0;

    for (int i = 1; i <= n; i++)
        sum += i * i;
    return sum;
}

int main(int argc, char **argv)
{
    int rank, mine, theirs = 0;

    MPI_Init(&argc, &argv);
    MPI_Comm_rank(MPI_COMM_WORLD, &rank);
    if (rank == 0) {
        mine = work(500);
        MPI_Send(&mine, 1, MPI_INT, 1, TAG, MPI_COMM_WORLD);
    } else {
        MPI_Recv(&theirs, 1, MPI_INT, 0, TAG, MPI_COMM_WORLD, MPI_STATUS_IGNORE);
        mine = work(600);
        printf("%d + %d = %d\n", theirs, mine, theirs + mine);
    }
    MPI_Finalize();
    return 0;
}
