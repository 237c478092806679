/* Two ranks exchange buffers in partitions at once, and one receives in fewer partitions than the other sends.

   c/rvmc-cc -n 2 --link 0,1 --link 1,0 -o partitions_both_ways.image c/programs/partitions_both_ways.c && \
       rvmc run < partitions_both_ways.image */
#include <mpi.h>
#include <stdio.h>

#define COUNT 16

int main(int argc, char *argv[])
{
    int rank, other, sum, parts[2];
    long out[COUNT], in[COUNT];
    MPI_Request requests[2];

    MPI_Init(&argc, &argv);
    MPI_Comm_rank(MPI_COMM_WORLD, &rank);
    other = 1 - rank;
    parts[0] = rank == 0 ? 8 : 4;               /* out: rank 0 in 8 parts, rank 1 in 4 */
    parts[1] = rank == 0 ? 4 : 2;               /* in: rank 0 in 4 parts, rank 1 in 2 */
    MPI_Psend_init(out, parts[0], COUNT / parts[0], MPI_LONG, other, 1, MPI_COMM_WORLD, MPI_INFO_NULL, &requests[0]);
    MPI_Precv_init(in, parts[1], COUNT / parts[1], MPI_LONG, other, 1, MPI_COMM_WORLD, MPI_INFO_NULL, &requests[1]);
    for (int step = 1; step <= 3; step++) {
        MPI_Startall(2, requests);
        for (int part = 0; part < parts[0]; part++) {
            int length = COUNT / parts[0];

            for (int i = 0; i < length; i++)
                out[part * length + i] = 1000 * step + 100 * rank + part * length + i;
            MPI_Pready(part, requests[0]);
        }
        MPI_Waitall(2, requests, MPI_STATUSES_IGNORE);
        sum = 0;
        for (int i = 0; i < COUNT; i++)
            sum += in[i] == 1000 * step + 100 * other + i;
        printf("step %d: %d of %d are right, the last is %ld\n", step, sum, COUNT, in[COUNT - 1]);
    }
    MPI_Request_free(&requests[0]);
    MPI_Request_free(&requests[1]);
    MPI_Finalize();
    return 0;
}
