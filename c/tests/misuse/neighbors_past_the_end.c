#include <mpi.h>
#include <stdio.h>
#include <stdlib.h>

int main(int argc, char **argv)
{
    int rank;
    int size = 3;
    int yes = 1;
    int *in = malloc(1 * sizeof *in); /* C */
    MPI_Comm ring;

    MPI_Init(&argc, &argv);
    MPI_Comm_rank(MPI_COMM_WORLD, &rank);
    MPI_Cart_create(MPI_COMM_WORLD, 1, &size, &yes, 0, &ring);
    MPI_Neighbor_allgather(&rank, 1, MPI_INT, in, 1, MPI_INT, ring); /* A */
    printf("rank %d has %d\n", rank, in[0]);
    free(in);
    MPI_Comm_free(&ring);
    MPI_Finalize();
    return 0;
}
