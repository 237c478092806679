/* freed_while_active.c: a request that is freed before it is complete. MPI allows that of a send (0), warns of it for a receive (1),
   and forbids it for a collective (2, and a persistent one, 3). */
#include <mpi.h>
#include <stdio.h>

int main(int argc, char **argv)
{
    int rank, x = 0;
    MPI_Request request = MPI_REQUEST_NULL;

    MPI_Init(&argc, &argv);
    MPI_Comm_rank(MPI_COMM_WORLD, &rank);
    if (KIND == 0 && rank == 0)
        MPI_Send_init(&x, 1, MPI_INT, 1, 0, MPI_COMM_WORLD, &request);
    if (KIND == 1 && rank == 1)
        MPI_Irecv(&x, 1, MPI_INT, 0, 0, MPI_COMM_WORLD, &request);
    if (KIND == 2)
        MPI_Ibarrier(MPI_COMM_WORLD, &request);
    if (KIND == 3)
        MPI_Barrier_init(MPI_COMM_WORLD, MPI_INFO_NULL, &request);
    if (KIND == 3 || (KIND == 0 && rank == 0))
        MPI_Start(&request);
    if (request != MPI_REQUEST_NULL)
        MPI_Request_free(&request);
    if (KIND == 0 && rank == 1)
        MPI_Recv(&x, 1, MPI_INT, 0, 0, MPI_COMM_WORLD, MPI_STATUS_IGNORE);
    if (KIND == 1 && rank == 0)
        MPI_Send(&x, 1, MPI_INT, 1, 0, MPI_COMM_WORLD);
    MPI_Barrier(MPI_COMM_WORLD);
    printf("end\n");
    MPI_Finalize();
    return 0;
}
