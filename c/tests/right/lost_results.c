/* Rank 0 receives one result of each worker, but a worker sends two, and a table of 12,000 bytes that nobody asked for. The
   messages of MPI_Reduce have the same tag, and are received. */
#include <mpi.h>
#include <stdio.h>

static int table[3000];

static void work(int rank)
{
    for (int part = 1; part <= 2; part++) {
        int result = 10 * rank + part;

        MPI_Send(&result, 1, MPI_INT, 0, 0, MPI_COMM_WORLD);
    }
    if (rank == 1)
        MPI_Send(table, 3000, MPI_INT, 0, 4, MPI_COMM_WORLD);
}

int main(int argc, char **argv)
{
    int rank, size, result, sum = 0, all;

    MPI_Init(&argc, &argv);
    MPI_Comm_rank(MPI_COMM_WORLD, &rank);
    MPI_Comm_size(MPI_COMM_WORLD, &size);
    if (rank > 0)
        work(rank);
    for (int worker = 1; rank == 0 && worker < size; worker++) {
        MPI_Recv(&result, 1, MPI_INT, worker, 0, MPI_COMM_WORLD, MPI_STATUS_IGNORE);
        sum += result;
    }
    MPI_Reduce(&sum, &all, 1, MPI_INT, MPI_SUM, 0, MPI_COMM_WORLD);
    if (rank == 0)
        printf("sum %d\n", all);
    MPI_Finalize();
    return 0;
}
