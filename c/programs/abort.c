/* A rank finds something wrong and ends all by MPI_Abort, whose code is that of the whole run. The others wait for a
   message that never comes.

   c/rvmc-cc -n 3 -o abort.image c/programs/abort.c && rvmc run < abort.image */
#include <mpi.h>
#include <stdio.h>

int main(int argc, char *argv[])
{
    int rank, number = 0;

    MPI_Init(&argc, &argv);
    MPI_Comm_rank(MPI_COMM_WORLD, &rank);
    printf("rank %d begins\n", rank);
    fflush(stdout);
    MPI_Barrier(MPI_COMM_WORLD);
    if (rank == 1) {
        printf("rank 1 finds no input\n");
        fflush(stdout);
        MPI_Abort(MPI_COMM_WORLD, 42);
    }
    MPI_Recv(&number, 1, MPI_INT, 1, 0, MPI_COMM_WORLD, MPI_STATUS_IGNORE);
    printf("rank %d got %d\n", rank, number);
    MPI_Finalize();
    return 0;
}
