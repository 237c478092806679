/* A grid of ranks split into rows and columns, with sums along both; ranks in another order by their keys; one that stays out;
   and a communicator that is made and freed more often than there can be at one time.

   c/rvmc-cc -n 6 -o split.image c/programs/split.c && rvmc run < split.image */
#include <mpi.h>
#include <stdio.h>

#define COLUMNS 3

static void show(const char *name, MPI_Comm comm, int value)
{
    int rank, size, sum, first = value;

    MPI_Comm_rank(comm, &rank);
    MPI_Comm_size(comm, &size);
    MPI_Allreduce(&value, &sum, 1, MPI_INT, MPI_SUM, comm);
    MPI_Bcast(&first, 1, MPI_INT, 0, comm);
    printf("%s: %d of %d, sum %d, first %d\n", name, rank, size, sum, first);
}

/* Each sends to the next one, and the message has the same tag in each communicator. */
static void pass(const char *name, MPI_Comm comm, int value)
{
    int rank, size, got;
    MPI_Status status;

    MPI_Comm_rank(comm, &rank);
    MPI_Comm_size(comm, &size);
    MPI_Sendrecv(&value, 1, MPI_INT, (rank + 1) % size, 7, &got, 1, MPI_INT, MPI_ANY_SOURCE, MPI_ANY_TAG, comm, &status);
    printf("%s: %d from %d by tag %d\n", name, got, status.MPI_SOURCE, status.MPI_TAG);
}

int main(int argc, char *argv[])
{
    int rank, size, total = 0;
    MPI_Comm row, column, backwards, part, again;

    MPI_Init(&argc, &argv);
    MPI_Comm_rank(MPI_COMM_WORLD, &rank);
    MPI_Comm_size(MPI_COMM_WORLD, &size);
    MPI_Comm_split(MPI_COMM_WORLD, rank / COLUMNS, rank, &row);
    MPI_Comm_split(MPI_COMM_WORLD, rank % COLUMNS, rank, &column);
    show("row", row, rank);
    show("column", column, rank);
    pass("row", row, 10 + rank);
    pass("column", column, 20 + rank);

    MPI_Comm_split(MPI_COMM_WORLD, 5, -rank, &backwards);
    show("backwards", backwards, rank);
    pass("backwards", backwards, 30 + rank);
    MPI_Comm_split(backwards, rank == 2 ? MPI_UNDEFINED : rank % 2, 0, &part);
    if (part == MPI_COMM_NULL)
        printf("part: none\n");
    else
        show("part", part, rank);

    for (int i = 0; i < 20; i++) {
        int ranks;

        MPI_Comm_split(row, rank % 2, 0, &again);
        MPI_Comm_size(again, &ranks);
        total += ranks;
        MPI_Comm_free(&again);
    }
    printf("again: %d, freed: %d\n", total, again == MPI_COMM_NULL);
    if (part != MPI_COMM_NULL)
        MPI_Comm_free(&part);
    MPI_Comm_free(&backwards);
    MPI_Comm_free(&column);
    MPI_Comm_free(&row);
    MPI_Finalize();
    return 0;
}
