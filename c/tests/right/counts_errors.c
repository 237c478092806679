#include <mpi.h>
#include <stdio.h>

/* A handler of the program's own counts errors, and the program goes on. */

static int errors;

static void count(MPI_Comm *comm, int *code, ...)
{
    (void)comm;
    (void)code;
    errors++;
}

int main(int argc, char **argv)
{
    int rank, all[8] = {0}, sum = 0;
    MPI_Errhandler handler;

    MPI_Init(&argc, &argv);
    MPI_Comm_create_errhandler(count, &handler);
    MPI_Comm_set_errhandler(MPI_COMM_WORLD, handler);
    MPI_Errhandler_free(&handler);
    MPI_Comm_rank(MPI_COMM_WORLD, &rank);
#ifndef RIGHT
    if (rank == 1)
        MPI_Scan(&rank, &sum, 1, MPI_INT, MPI_SUM, MPI_COMM_WORLD);
    else
#endif
        MPI_Allgather(&rank, 1, MPI_INT, all, 1, MPI_INT, MPI_COMM_WORLD);
    printf("%s, %d\n", errors ? "errors" : "no error", all[0] + sum);
    MPI_Finalize();
    return 0;
}
