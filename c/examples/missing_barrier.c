/* Wrong: three ranks meet in a barrier behind each of three rounds, but one of them leaves the loop early and
   misses the last barrier. A barrier is over when all are in it, so the other two wait for ever. The mend is
   that all ranks make the same collective calls in the same order, also those that have nothing to do.

   c/rvmc-cc -n 3 -o missing_barrier.image c/examples/missing_barrier.c
   rvmc one --budget 20000 --why < missing_barrier.image */
#include <mpi.h>
#include <stdio.h>

enum { ROUNDS = 3 };

/* whether a rank has work in a round: rank 0 has none in the last one */
static int has_work(int rank, int round)
{
    return rank != 0 || round < ROUNDS - 1;
}

int main(int argc, char **argv)
{
    int rank;

    MPI_Init(&argc, &argv);
    MPI_Comm_rank(MPI_COMM_WORLD, &rank);
    for (int round = 0; round < ROUNDS; round++) {
        if (!has_work(rank, round))
            break;
        printf("rank %d works in round %d\n", rank, round);
        MPI_Barrier(MPI_COMM_WORLD);
    }
    printf("rank %d leaves\n", rank);
    MPI_Finalize();
    return 0;
}
