/* Wrong: in a ring of ranks each sends to the next and then receives from the one before. MPI_Ssend waits until
   its message is received, so all of them wait. By MPI_Send this goes well or not, as the MPI and the size of
   the message have it: MPI_Ssend in its place shows the fault each time. The mend is MPI_Sendrecv, or to let one
   rank receive first.

   c/rvmc-cc -n 4 -o deadlock_ring.image c/examples/deadlock_ring.c
   rvmc one --budget 20000 --why < deadlock_ring.image */
#include <mpi.h>
#include <stdio.h>

enum { TAG = 3 };

int main(int argc, char **argv)
{
    int rank, size, came;

    MPI_Init(&argc, &argv);
    MPI_Comm_rank(MPI_COMM_WORLD, &rank);
    MPI_Comm_size(MPI_COMM_WORLD, &size);
    printf("rank %d begins\n", rank);
    MPI_Ssend(&rank, 1, MPI_INT, (rank + 1) % size, TAG, MPI_COMM_WORLD);
    MPI_Recv(&came, 1, MPI_INT, (rank + size - 1) % size, TAG, MPI_COMM_WORLD, MPI_STATUS_IGNORE);
    printf("rank %d got %d\n", rank, came);
    MPI_Finalize();
    return 0;
}
