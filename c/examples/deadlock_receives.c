/* Wrong: two ranks want to exchange numbers, and each receives before it sends. Neither gets to its send. With a
   real MPI this hangs and says nothing; `--why` tells what each rank waits for, and that no run goes on from
   there. The mend is MPI_Sendrecv, or to let one of the two send first.

   c/rvmc-cc -n 2 -o deadlock_receives.image c/examples/deadlock_receives.c
   rvmc one --budget 20000 --why < deadlock_receives.image */
#include <mpi.h>
#include <stdio.h>

enum { TAG = 7 };

static int exchange(int mine, int other)
{
    int theirs;

    MPI_Recv(&theirs, 1, MPI_INT, other, TAG, MPI_COMM_WORLD, MPI_STATUS_IGNORE);
    MPI_Send(&mine, 1, MPI_INT, other, TAG, MPI_COMM_WORLD);
    return theirs;
}

int main(int argc, char **argv)
{
    int rank;

    MPI_Init(&argc, &argv);
    MPI_Comm_rank(MPI_COMM_WORLD, &rank);
    printf("rank %d begins\n", rank);
    printf("rank %d got %d\n", rank, exchange(10 * rank, 1 - rank));
    MPI_Finalize();
    return 0;
}
