/* Ranks that end with codes of their own: one returns it from main, one calls exit.

   c/rvmc-cc -n 3 -o exit_codes.image c/programs/exit_codes.c && rvmc run < exit_codes.image */
#include <mpi.h>
#include <stdio.h>
#include <stdlib.h>

static void last_words(void)
{
    printf("the function of atexit\n");
}

int main(int argc, char *argv[])
{
    int rank;

    MPI_Init(&argc, &argv);
    MPI_Comm_rank(MPI_COMM_WORLD, &rank);
    atexit(last_words);
    printf("rank %d ends\n", rank);
    MPI_Finalize();
    if (rank == 1)
        exit(4);
    return rank;
}
