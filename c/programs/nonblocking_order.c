/* A broadcast and a reduction that nobody waits for while other messages come and go: rank 1 answers rank 2 before it
   completes what it began, so rank 2's part doesn't need rank 1's help. Two communicators' don't mix.

   c/rvmc-cc -n 5 -o nonblocking_order.image c/programs/nonblocking_order.c && rvmc run < nonblocking_order.image */
#include <mpi.h>
#include <stdio.h>
#include <stdlib.h>

#define MANY 3000

/* Puts the numbers of the ranks one behind the other: not commutative. */
static void joined(void *left, void *right, int *length, MPI_Datatype *type)
{
    long *x = left, *y = right;

    (void)type;
    for (int i = 0; i < *length; i++) {
        long digits = 1;

        while (digits <= y[i])
            digits *= 10;
        y[i] += x[i] * digits;
    }
}

int main(int argc, char *argv[])
{
    int rank, size, word = -1, other = -1, flag, polls = 0;
    long mine, all = 0, *many, before = 0;
    MPI_Comm copy;
    MPI_Op join;
    MPI_Request requests[5];
    MPI_Status status;

    MPI_Init(&argc, &argv);
    MPI_Comm_rank(MPI_COMM_WORLD, &rank);
    MPI_Comm_size(MPI_COMM_WORLD, &size);
    MPI_Comm_dup(MPI_COMM_WORLD, &copy);
    MPI_Op_create(joined, 0, &join);
    many = malloc(MANY * sizeof *many);
    for (int i = 0; i < MANY; i++)
        many[i] = rank == 4 ? i : 0;
    mine = rank + 1;
    if (rank == 0)
        word = 5;
    if (rank == 3)
        other = 6;
    MPI_Ibcast(&word, 1, MPI_INT, 0, MPI_COMM_WORLD, &requests[0]);
    MPI_Ibcast(&other, 1, MPI_INT, 3, copy, &requests[1]);
    MPI_Iallreduce(&mine, &all, 1, MPI_LONG, join, MPI_COMM_WORLD, &requests[2]);
    MPI_Ibcast(many, MANY, MPI_LONG, 4, copy, &requests[3]);
    MPI_Iexscan(&mine, &before, 1, MPI_LONG, join, copy, &requests[4]);
    if (rank == 1) {
        long theirs;
        MPI_Recv(&theirs, 1, MPI_LONG, 2, 0, MPI_COMM_WORLD, &status);
        printf("rank 2 has %ld\n", theirs);
    }
    do
        MPI_Test(&requests[3], &flag, &status);
    while (!flag && ++polls < 1000000);
    MPI_Waitall(3, requests, MPI_STATUSES_IGNORE);
    MPI_Wait(&requests[4], &status);
    if (rank == 2)
        MPI_Send(&all, 1, MPI_LONG, 1, 0, MPI_COMM_WORLD);
    printf("%d %d %ld %ld %ld\n", word, other, all, many[MANY - 1], rank ? before : 0L);
    free(many);
    MPI_Op_free(&join);
    MPI_Comm_free(&copy);
    MPI_Finalize();
    return 0;
}
