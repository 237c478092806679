/* send_to_oneself.c: rank 0 has its part of the work too, and sends it to itself before it receives it. */
#include <mpi.h>
#include <stdio.h>

int main(int argc, char **argv)
{
    int rank, size, part;

    MPI_Init(&argc, &argv);
    MPI_Comm_rank(MPI_COMM_WORLD, &rank);
    MPI_Comm_size(MPI_COMM_WORLD, &size);
    if (rank == 0)
        for (int to = size - 1; to >= 0; to--)
            MPI_Send(&to, 1, MPI_INT, to, 1, MPI_COMM_WORLD);
    MPI_Recv(&part, 1, MPI_INT, 0, 1, MPI_COMM_WORLD, MPI_STATUS_IGNORE);
    printf("rank %d does part %d\n", rank, part);
    MPI_Finalize();
    return 0;
}
