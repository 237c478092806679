#include <mpi.h>

/* ints of a message: 200,000 bytes, which MPICH doesn't buffer */
#ifndef COUNT
#define COUNT 50000
#endif

/* how often the words come once more: a search has to look at some hundred states before the second pair */
#define ROUNDS 100

enum { WORD, ORDER, SWAP, NOTHING };
enum { END, AGAIN, SWAPS };

static int out[COUNT], in[COUNT];

/* Whose word is first. */
static int first_of_two(void)
{
    int word;
    MPI_Status status;

    MPI_Recv(&word, 1, MPI_INT, MPI_ANY_SOURCE, WORD, MPI_COMM_WORLD, &status);
    MPI_Recv(&word, 1, MPI_INT, 3 - status.MPI_SOURCE, WORD, MPI_COMM_WORLD, MPI_STATUS_IGNORE);
    return status.MPI_SOURCE;
}

static void tell_both(int one, int two)
{
    MPI_Send(&one, 1, MPI_INT, 1, ORDER, MPI_COMM_WORLD);
    MPI_Send(&two, 1, MPI_INT, 2, ORDER, MPI_COMM_WORLD);
}

static int next_order(int rank)
{
    int order;

    MPI_Send(&rank, 1, MPI_INT, 0, WORD, MPI_COMM_WORLD);
    MPI_Recv(&order, 1, MPI_INT, 0, ORDER, MPI_COMM_WORLD, MPI_STATUS_IGNORE);
    return order;
}

/* Rank 0 swaps with the rank whose word comes first, so two pairs may hang, one on each way. On the way of rank 2 the words come
   many times before that, and rank 2 looks for a message that never comes: nobody asks for that on the other way. */
int main(int argc, char **argv)
{
    int rank, order, there, other;

    MPI_Init(&argc, &argv);
    MPI_Comm_rank(MPI_COMM_WORLD, &rank);
    if (rank == 0) {
        order = SWAPS;
        other = first_of_two();
        for (int round = 0; other == 2 && round < ROUNDS; round++) {
            tell_both(AGAIN, AGAIN);
            first_of_two();
        }
        tell_both(other == 1 ? SWAPS : END, other == 2 ? SWAPS : END);
    } else {
        other = 0;
        order = next_order(rank);
        while (order == AGAIN) {
            order = next_order(rank);
            if (order == SWAPS)
                MPI_Iprobe(0, NOTHING, MPI_COMM_WORLD, &there, MPI_STATUS_IGNORE);
        }
    }
    if (order == SWAPS) {
        MPI_Send(out, COUNT, MPI_INT, other, SWAP, MPI_COMM_WORLD);
        MPI_Recv(in, COUNT, MPI_INT, other, SWAP, MPI_COMM_WORLD, MPI_STATUS_IGNORE);
    }
    MPI_Finalize();
    return 0;
}
