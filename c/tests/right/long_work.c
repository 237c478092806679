/* One rank is through long before the other one, and prints something behind MPI_Finalize. */
#include <mpi.h>
#include <stdio.h>

int main(int argc, char **argv)
{
    unsigned rounds = 200000, seed = 1;
    int rank;

    MPI_Init(&argc, &argv);
    MPI_Comm_rank(MPI_COMM_WORLD, &rank);
    MPI_Bcast(&rounds, 1, MPI_UNSIGNED, 0, MPI_COMM_WORLD);
    for (unsigned i = 0; rank == 1 && i < rounds; i++)
        seed = seed * 1664525u + 1013904223u + (seed >> 7);
    if (rank == 1)
        printf("rank 1 has %u\n", seed);
    MPI_Finalize();
    printf("rank %d is through\n", rank);
    return 0;
}
