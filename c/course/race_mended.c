/* race.c, fixed: each receive names its source.

   c/rvmc-cc -n 3 -o race_mended.image c/course/race_mended.c */
#include <mpi.h>
#include <stdio.h>

enum { TAG = 1, LENGTH = 8 };

static const char words[][LENGTH] = {"", "good", "morning"};

int main(int argc, char **argv)
{
    char first[LENGTH], second[LENGTH];
    int rank;

    MPI_Init(&argc, &argv);
    MPI_Comm_rank(MPI_COMM_WORLD, &rank);
    if (rank == 0) {
        printf("rank 0 says: ");
        MPI_Recv(first, LENGTH, MPI_CHAR, 1, TAG, MPI_COMM_WORLD, MPI_STATUS_IGNORE);
        MPI_Recv(second, LENGTH, MPI_CHAR, 2, TAG, MPI_COMM_WORLD, MPI_STATUS_IGNORE);
        printf("%s %s\n", first, second);
    } else {
        MPI_Send(words[rank], LENGTH, MPI_CHAR, 0, TAG, MPI_COMM_WORLD);
    }
    MPI_Finalize();
    return 0;
}
