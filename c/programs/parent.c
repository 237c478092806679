/* A program that may have been spawned asks for its parent, and has none.

   c/rvmc-cc -n 2 -o parent.image c/programs/parent.c && rvmc run < parent.image */
#include <mpi.h>
#include <stdio.h>

int main(int argc, char *argv[])
{
    int rank, between = -1;
    MPI_Comm parent = MPI_COMM_WORLD;

    MPI_Init(&argc, &argv);
    MPI_Comm_rank(MPI_COMM_WORLD, &rank);
    MPI_Comm_get_parent(&parent);
    printf("rank %d: %s\n", rank, parent == MPI_COMM_NULL ? "no parent" : "WRONG");
    MPI_Comm_test_inter(MPI_COMM_WORLD, &between);
    printf("rank %d: an intercommunicator: %d\n", rank, between);
    MPI_Finalize();
    return 0;
}
