/* Wrong, but rarely seen: rank 2 works for a long time before it sends, so its word is nearly always last.

   c/rvmc-cc -n 3 -o hidden.image c/course/hidden.c */
#include <mpi.h>
#include <stdio.h>

enum { TAG = 1, LENGTH = 8 };

static const char words[][LENGTH] = {"", "good", "morning"};

/* works for this many rounds */
static void work(int rounds)
{
    for (volatile int i = 0; i < rounds; i++)
        ;
}

int main(int argc, char **argv)
{
    char first[LENGTH], second[LENGTH];
    int rank;

    MPI_Init(&argc, &argv);
    MPI_Comm_rank(MPI_COMM_WORLD, &rank);
    if (rank == 0) {
        printf("rank 0 says: ");
        MPI_Recv(first, LENGTH, MPI_CHAR, MPI_ANY_SOURCE, TAG, MPI_COMM_WORLD, MPI_STATUS_IGNORE);
        MPI_Recv(second, LENGTH, MPI_CHAR, MPI_ANY_SOURCE, TAG, MPI_COMM_WORLD, MPI_STATUS_IGNORE);
        printf("%s %s\n", first, second);
    } else {
        if (rank == 2)
            work(20);
        MPI_Send(words[rank], LENGTH, MPI_CHAR, 0, TAG, MPI_COMM_WORLD);
    }
    MPI_Finalize();
    return 0;
}
