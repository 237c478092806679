/* Ranks 1 to 3 send the sum of some squares to rank 0, which adds to each number where it came from. */

#include <mpi.h>
#include <stdio.h>

long me;
long got[8];

long work(long x) {
    long sum = 0;
    for (long i = 0; i < x; i++)
        sum += i * i;
    return sum;
}

int main(int argc, char **argv) {
    int rank;
    MPI_Init(&argc, &argv);
    MPI_Comm_rank(MPI_COMM_WORLD, &rank);
    me = rank;
    long number = work(3 + rank);
    if (me != 0)
        MPI_Send(&number, 1, MPI_LONG, 0, 7, MPI_COMM_WORLD);
    else
        for (int i = 1; i < 4; i++) {
            MPI_Status from;
            MPI_Recv(&got[i], 1, MPI_LONG, MPI_ANY_SOURCE, 7, MPI_COMM_WORLD, &from);
            got[i] += from.MPI_SOURCE * 1000;
        }
    printf("done\n");
    MPI_Finalize();
    return 0;
}
