#include <mpi.h>
#include <stdio.h>

int main(int argc, char **argv)
{
    MPI_Group world, first;
    int rank, zero[] = {0};

    MPI_Init(&argc, &argv);
    MPI_Comm_group(MPI_COMM_WORLD, &world);
    MPI_Group_incl(world, 1, zero, &first); /* A */
    MPI_Group_rank(first, &rank);
    printf("rank %d\n", rank == MPI_UNDEFINED ? -1 : rank);
    MPI_Group_free(&first);
    MPI_Group_free(&world);
    MPI_Finalize(); /* B */
    return 0;
}
