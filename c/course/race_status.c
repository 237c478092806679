/* A solution of lesson 4: rank 0 still receives whichever word comes first, and puts it where it belongs.

   c/rvmc-cc -n 3 -o race_status.image c/course/race_status.c */
#include <mpi.h>
#include <stdio.h>
#include <string.h>

enum { TAG = 1, LENGTH = 8 };

static const char words[][LENGTH] = {"", "good", "morning"};

int main(int argc, char **argv)
{
    char got[3][LENGTH], word[LENGTH];
    int rank;

    MPI_Init(&argc, &argv);
    MPI_Comm_rank(MPI_COMM_WORLD, &rank);
    if (rank == 0) {
        printf("rank 0 says: ");
        for (int i = 0; i < 2; i++) {
            MPI_Status status;

            MPI_Recv(word, LENGTH, MPI_CHAR, MPI_ANY_SOURCE, TAG, MPI_COMM_WORLD, &status);
            memcpy(got[status.MPI_SOURCE], word, LENGTH);
        }
        printf("%s %s\n", got[1], got[2]);
    } else {
        MPI_Send(words[rank], LENGTH, MPI_CHAR, 0, TAG, MPI_COMM_WORLD);
    }
    MPI_Finalize();
    return 0;
}
