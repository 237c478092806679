#include <mpi.h>
#include <stdio.h>

/* The barrier is in a function that reports, and only rank 0 calls it. */

static int rank;

static void report(const char *what)
{
    MPI_Barrier(MPI_COMM_WORLD);
    if (rank == 0)
        puts(what);
}

static void set_up(int *n)
{
    if (rank == 0)
        *n = 12;
#ifndef RIGHT
    if (rank == 0)
#endif
        report("set up");
    MPI_Bcast(n, 1, MPI_INT, 0, MPI_COMM_WORLD);
}

int main(int argc, char **argv)
{
    int n = 0;

    MPI_Init(&argc, &argv);
    MPI_Comm_rank(MPI_COMM_WORLD, &rank);
    set_up(&n);
    report("done");
    MPI_Finalize();
    return n == 12 ? 0 : 1;
}
