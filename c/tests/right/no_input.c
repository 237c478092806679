/* Rank 1 finds that its input is wrong, and ends all ranks. Rank 0 has sent it a job, which it hasn't received. */
#include <mpi.h>
#include <stdio.h>

int main(int argc, char **argv)
{
    int rank, job = 5, size = 0;

    MPI_Init(&argc, &argv);
    MPI_Comm_rank(MPI_COMM_WORLD, &rank);
    if (rank == 1 && size < 1)
        MPI_Abort(MPI_COMM_WORLD, 3);
    if (rank == 0)
        MPI_Send(&job, 1, MPI_INT, 1, 0, MPI_COMM_WORLD);
    if (rank == 1)
        MPI_Recv(&job, 1, MPI_INT, 0, 0, MPI_COMM_WORLD, MPI_STATUS_IGNORE);
    MPI_Bcast(&job, 1, MPI_INT, 0, MPI_COMM_WORLD);
    printf("rank %d has job %d\n", rank, job);
    MPI_Finalize();
    return 0;
}
