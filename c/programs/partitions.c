/* A buffer that goes over in partitions: rank 0 makes them ready in an order of its own, twice, by the same requests.

   c/rvmc-cc -n 2 --link 0,1 -o partitions.image c/programs/partitions.c && rvmc run < partitions.image */
#include <mpi.h>
#include <stdio.h>

#define PARTITIONS 6
#define PER 4

int main(int argc, char *argv[])
{
    int rank, list[2] = {5, 0}, arrived;
    double buffer[PARTITIONS * PER];
    MPI_Request request;
    MPI_Status status;

    MPI_Init(&argc, &argv);
    MPI_Comm_rank(MPI_COMM_WORLD, &rank);
    if (rank == 0)
        MPI_Psend_init(buffer, PARTITIONS, PER, MPI_DOUBLE, 1, 9, MPI_COMM_WORLD, MPI_INFO_NULL, &request);
    else
        MPI_Precv_init(buffer, PARTITIONS, PER, MPI_DOUBLE, 0, 9, MPI_COMM_WORLD, MPI_INFO_NULL, &request);
    for (int round = 0; round < 2; round++) {
        for (int i = 0; i < PARTITIONS * PER; i++)
            buffer[i] = rank == 0 ? round * 100 + i : -1;
        MPI_Start(&request);
        if (rank == 0) {
            MPI_Pready(3, request);
            MPI_Pready_range(1, 2, request);
            MPI_Pready_list(2, list, request);
            MPI_Pready(4, request);
            MPI_Wait(&request, MPI_STATUS_IGNORE);
        } else {
            for (int part = PARTITIONS - 1; part >= 0; part--) {
                do
                    MPI_Parrived(request, part, &arrived);
                while (!arrived);
                printf("round %d, partition %d: %g to %g\n", round, part, buffer[part * PER], buffer[part * PER + PER - 1]);
            }
            MPI_Wait(&request, &status);
            printf("from %d by tag %d\n", status.MPI_SOURCE, status.MPI_TAG);
        }
    }
    printf("the request: %s\n", request == MPI_REQUEST_NULL ? "WRONG" : "still there");
    MPI_Request_free(&request);
    printf("and freed: %s\n", request == MPI_REQUEST_NULL ? "null" : "WRONG");
    MPI_Finalize();
    return 0;
}
