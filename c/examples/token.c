/* Mutual exclusion by a token that goes round a ring: only the rank that has it may enter. No rank asks another
   for leave, and none is passed over for ever. Rank r wants to enter r + 1 times. The token counts the entries,
   so that no two have the same number, and the ranks that want no more: when all are through, it goes round once
   more to tell so.

   c/rvmc-cc -n 4 -o token.image c/examples/token.c && rvmc run < token.image */
#include <mpi.h>
#include <stdio.h>

enum { TAG = 1 };

typedef struct {
    int entries, through;
} token_t;

static token_t take(int rank, int size)
{
    token_t token;

    MPI_Recv(&token, 2, MPI_INT, (rank + size - 1) % size, TAG, MPI_COMM_WORLD, MPI_STATUS_IGNORE);
    return token;
}

static void pass(token_t token, int rank, int size)
{
    MPI_Send(&token, 2, MPI_INT, (rank + 1) % size, TAG, MPI_COMM_WORLD);
}

/* what only one rank at a time may do */
static void enter(int rank, token_t *token)
{
    token->entries++;
    printf("rank %d enters as number %d\n", rank, token->entries);
}

/* takes the token and passes it on, until all ranks are through; rank 0 has it first */
static void go_round(int rank, int size)
{
    int wanted = rank + 1, is_last = 0;
    token_t token = {0, 0};

    if (rank != 0)
        token = take(rank, size);
    while (token.through < size) {
        if (wanted > 0) {
            enter(rank, &token);
            token.through += --wanted == 0;
            is_last = token.through == size;
        }
        pass(token, rank, size);
        token = take(rank, size);
    }
    /* the rank that was the last to be through has told all others, and keeps the token */
    if (!is_last)
        pass(token, rank, size);
    printf("rank %d leaves, and knows of %d entries\n", rank, token.entries);
}

int main(int argc, char **argv)
{
    int rank, size;

    MPI_Init(&argc, &argv);
    MPI_Comm_rank(MPI_COMM_WORLD, &rank);
    MPI_Comm_size(MPI_COMM_WORLD, &size);
    go_round(rank, size);
    MPI_Finalize();
    return 0;
}
