/* A solution of lesson 5: rank 1 goes on adding squares until the message is there.

   c/rvmc-cc -n 2 -o poll.image c/course/poll.c */
#include <mpi.h>
#include <stdio.h>

enum { TAG = 1 };

/* the sum of the squares of 1 to n, computed the long way */
static int work(int n)
{
    int sum = 0;

    for (int i = 1; i <= n; i++)
        sum += i * i;
    return sum;
}

int main(int argc, char **argv)
{
    int rank, mine, theirs = 0;

    MPI_Init(&argc, &argv);
    MPI_Comm_rank(MPI_COMM_WORLD, &rank);
    if (rank == 0) {
        mine = work(500);
        MPI_Send(&mine, 1, MPI_INT, 1, TAG, MPI_COMM_WORLD);
    } else {
        MPI_Request request;
        int done = 0, n = 0;

        mine = 0;
        MPI_Irecv(&theirs, 1, MPI_INT, 0, TAG, MPI_COMM_WORLD, &request);
        while (!done) {
            n++;
            mine += n * n;
            MPI_Test(&request, &done, MPI_STATUS_IGNORE);
        }
        printf("%d squares in the meantime\n", n);
        printf("%d + %d = %d\n", theirs, mine, theirs + mine);
    }
    MPI_Finalize();
    return 0;
}
