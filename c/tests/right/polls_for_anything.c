/* The master polls for whatever comes, and receives just that. */
#include <mpi.h>
#include <stdio.h>

#ifndef WORDS
#define WORDS 4
#endif

enum { MULTIPLES = 1, DONE = 2 };

static int multiples[WORDS];

int main(int argc, char **argv)
{
    int rank, size, sum = 0;
    MPI_Init(&argc, &argv);
    MPI_Comm_rank(MPI_COMM_WORLD, &rank);
    MPI_Comm_size(MPI_COMM_WORLD, &size);
    for (int left = rank == 0 ? size - 1 : 0; left > 0;) {
        int flag = 0;
        MPI_Status status;
        while (!flag)
            MPI_Iprobe(MPI_ANY_SOURCE, MPI_ANY_TAG, MPI_COMM_WORLD, &flag, &status);
        MPI_Recv(multiples, WORDS, MPI_INT, status.MPI_SOURCE, status.MPI_TAG, MPI_COMM_WORLD, MPI_STATUS_IGNORE);
        if (status.MPI_TAG == DONE)
            left--;
        else
            sum += multiples[1];
    }
    if (rank == 0) {
        printf("the sum is %d\n", sum);
    } else {
        for (int i = 0; i < WORDS; i++)
            multiples[i] = rank * i;
        MPI_Send(multiples, WORDS, MPI_INT, 0, MULTIPLES, MPI_COMM_WORLD);
        MPI_Send(NULL, 0, MPI_INT, 0, DONE, MPI_COMM_WORLD);
    }
    MPI_Finalize();
    return 0;
}
