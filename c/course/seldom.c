/* Wrong, but rarely seen: rank 0 receives a word from any rank, and then waits for rank 2's, which it may have already.

   c/rvmc-cc -n 3 -o seldom.image c/course/seldom.c */
#include <mpi.h>
#include <stdio.h>

enum { TAG = 1 };

/* works for this many rounds */
static void work(int rounds)
{
    for (volatile int i = 0; i < rounds; i++)
        ;
}

int main(int argc, char **argv)
{
    int rank, word;

    MPI_Init(&argc, &argv);
    MPI_Comm_rank(MPI_COMM_WORLD, &rank);
    if (rank == 0) {
        MPI_Recv(&word, 1, MPI_INT, MPI_ANY_SOURCE, TAG, MPI_COMM_WORLD, MPI_STATUS_IGNORE);
        printf("rank %d is first\n", word);
        MPI_Recv(&word, 1, MPI_INT, 2, TAG, MPI_COMM_WORLD, MPI_STATUS_IGNORE);
        printf("rank %d is there too\n", word);
    } else {
        if (rank == 2)
            work(20);
        MPI_Send(&rank, 1, MPI_INT, 0, TAG, MPI_COMM_WORLD);
    }
    MPI_Finalize();
    return 0;
}
