/* Wrong: rank 0 divides rank 1's number by rank 2's, but receives both from MPI_ANY_SOURCE, and so takes for
   rank 1's whichever comes first. `rvmc run` and a real MPI print now this and now that. With `rvmc one` and
   `--order 0,1,1,2` rank 1 is the first each time, with `--order 0,1,2,2` rank 2. The mend is to name the source
   of each receive.

   c/rvmc-cc -n 3 -o race.image c/examples/race.c && rvmc run < race.image */
#include <mpi.h>
#include <stdio.h>

enum { TAG = 1 };

static int receive(void)
{
    int number;

    MPI_Recv(&number, 1, MPI_INT, MPI_ANY_SOURCE, TAG, MPI_COMM_WORLD, MPI_STATUS_IGNORE);
    return number;
}

int main(int argc, char **argv)
{
    int rank;

    MPI_Init(&argc, &argv);
    MPI_Comm_rank(MPI_COMM_WORLD, &rank);
    if (rank == 0) {
        int dividend = receive();
        int divisor = receive();

        printf("%d / %d = %d\n", dividend, divisor, dividend / divisor);
    } else {
        int number = rank == 1 ? 84 : 12;

        MPI_Send(&number, 1, MPI_INT, 0, TAG, MPI_COMM_WORLD);
    }
    MPI_Finalize();
    return 0;
}
