/* A solution of lesson 1: only rank 0 says how many ranks there are.

   c/rvmc-cc -n 4 -o hello_zero.image c/course/hello_zero.c */
#include <mpi.h>
#include <stdio.h>

int main(int argc, char **argv)
{
    int rank, size;

    MPI_Init(&argc, &argv);
    MPI_Comm_rank(MPI_COMM_WORLD, &rank);
    MPI_Comm_size(MPI_COMM_WORLD, &size);
    if (rank == 0)
        printf("we are %d\n", size);
    else
        printf("I am %d\n", rank);
    MPI_Finalize();
    return 0;
}
