/* wildcards.c: a receive of any source and any tag is open while all ranks make each collective, and takes none of their
   messages, whether those are short or of several pieces; a probe finds none of them either. Three ranks or more; prints
   the same with a real MPI (mpicc, mpiexec -n 3). */
#include <mpi.h>
#include <stdio.h>

enum { LONG = 1030, MOST = 8 };

static int out[MOST * LONG], in[MOST * LONG], rank, size, found;

static void probe(void)
{
    int flag;

    MPI_Iprobe(MPI_ANY_SOURCE, MPI_ANY_TAG, MPI_COMM_WORLD, &flag, MPI_STATUS_IGNORE);
    found += flag;
}

static void collectives(int count)
{
    int counts[MOST], places[MOST];

    for (int r = 0; r < size; r++) {
        counts[r] = count;
        places[r] = r * count;
    }
    MPI_Barrier(MPI_COMM_WORLD);
    probe();
    MPI_Bcast(out, count, MPI_INT, 1, MPI_COMM_WORLD);
    MPI_Gather(out, count, MPI_INT, in, count, MPI_INT, 0, MPI_COMM_WORLD);
    MPI_Gatherv(out, count, MPI_INT, in, counts, places, MPI_INT, 1, MPI_COMM_WORLD);
    probe();
    MPI_Scatter(out, count, MPI_INT, in, count, MPI_INT, 2, MPI_COMM_WORLD);
    MPI_Scatterv(out, counts, places, MPI_INT, in, count, MPI_INT, 0, MPI_COMM_WORLD);
    MPI_Allgather(out, count, MPI_INT, in, count, MPI_INT, MPI_COMM_WORLD);
    MPI_Allgatherv(out, count, MPI_INT, in, counts, places, MPI_INT, MPI_COMM_WORLD);
    probe();
    MPI_Alltoall(out, count, MPI_INT, in, count, MPI_INT, MPI_COMM_WORLD);
    MPI_Reduce(out, in, count, MPI_INT, MPI_SUM, 2, MPI_COMM_WORLD);
    MPI_Allreduce(out, in, count, MPI_INT, MPI_MAX, MPI_COMM_WORLD);
    probe();
    MPI_Scan(out, in, count, MPI_INT, MPI_SUM, MPI_COMM_WORLD);
    MPI_Exscan(out, in, count, MPI_INT, MPI_SUM, MPI_COMM_WORLD);
}

int main(int argc, char **argv)
{
    int number = 0, flag, other;
    MPI_Request open;
    MPI_Status status;

    MPI_Init(&argc, &argv);
    MPI_Comm_rank(MPI_COMM_WORLD, &rank);
    MPI_Comm_size(MPI_COMM_WORLD, &size);
    MPI_Irecv(&number, 1, MPI_INT, MPI_ANY_SOURCE, MPI_ANY_TAG, MPI_COMM_WORLD, &open);
    collectives(2);
    collectives(LONG);
    MPI_Test(&open, &flag, &status);
    printf("received: %d\n", flag);
    MPI_Barrier(MPI_COMM_WORLD);
    /* only now somebody sends: each rank to the one behind it */
    other = 100 + rank;
    MPI_Send(&other, 1, MPI_INT, (rank + 1) % size, 40 + rank, MPI_COMM_WORLD);
    MPI_Wait(&open, &status);
    printf("rank %d got %d from %d by tag %d; %d found\n", rank, number, status.MPI_SOURCE, status.MPI_TAG, found);
    MPI_Finalize();
    return 0;
}
