/* Rank 0 computes while it waits for the answer. The log that rank 1 sends before it is read at the end. */
#include <mpi.h>
#include <stdio.h>

#ifndef WORDS
#define WORDS 16
#endif

enum { LOG = 1, ANSWER = 2 };

static int log_lines[WORDS];

int main(int argc, char **argv)
{
    int rank, answer = 0, arrived = 0;
    MPI_Request request;
    MPI_Init(&argc, &argv);
    MPI_Comm_rank(MPI_COMM_WORLD, &rank);
    if (rank == 0) {
        MPI_Irecv(&answer, 1, MPI_INT, 1, ANSWER, MPI_COMM_WORLD, &request);
        do {
            /* something useful */
            MPI_Test(&request, &arrived, MPI_STATUS_IGNORE);
        } while (!arrived);
        printf("the answer is %d\n", answer);
        MPI_Recv(log_lines, WORDS, MPI_INT, 1, LOG, MPI_COMM_WORLD, MPI_STATUS_IGNORE);
    } else {
        answer = 42;
        MPI_Send(log_lines, WORDS, MPI_INT, 0, LOG, MPI_COMM_WORLD);
        MPI_Send(&answer, 1, MPI_INT, 0, ANSWER, MPI_COMM_WORLD);
    }
    MPI_Finalize();
    return 0;
}
