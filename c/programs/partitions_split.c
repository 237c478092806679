/* Partitioned transfers in a communicator whose ranks stand the other way round.

   c/rvmc-cc -n 3 --link 2,0 -o partitions_split.image c/programs/partitions_split.c && rvmc run < partitions_split.image */
#include <mpi.h>
#include <stdio.h>

#define PARTITIONS 4
#define PER 2

int main(int argc, char *argv[])
{
    int world, rank, flag;
    long values[PARTITIONS * PER];
    MPI_Comm comm;
    MPI_Request request;
    MPI_Status status;

    MPI_Init(&argc, &argv);
    MPI_Comm_rank(MPI_COMM_WORLD, &world);
    MPI_Comm_split(MPI_COMM_WORLD, world == 1, -world, &comm);
    MPI_Comm_rank(comm, &rank);
    printf("%d is %d\n", world, rank);
    if (world == 2) {
        MPI_Psend_init(values, PARTITIONS, PER, MPI_LONG, 1, 5, comm, MPI_INFO_NULL, &request);
        for (int round = 0; round < 2; round++) {
            for (int i = 0; i < PARTITIONS * PER; i++)
                values[i] = 100 * round + i;
            MPI_Start(&request);
            for (int i = PARTITIONS - 1; i >= 0; i--)
                MPI_Pready(i, request);
            MPI_Wait(&request, MPI_STATUS_IGNORE);
        }
        MPI_Request_free(&request);
    } else if (world == 0) {
        MPI_Precv_init(values, PARTITIONS, PER, MPI_LONG, 0, 5, comm, MPI_INFO_NULL, &request);
        for (int round = 0; round < 2; round++) {
            MPI_Start(&request);
            do
                MPI_Parrived(request, 1, &flag);
            while (!flag);
            MPI_Wait(&request, &status);
            printf("%ld to %ld from %d by tag %d\n", values[0], values[PARTITIONS * PER - 1], status.MPI_SOURCE, status.MPI_TAG);
        }
        MPI_Request_free(&request);
    }
    MPI_Comm_free(&comm);
    MPI_Finalize();
    return 0;
}
