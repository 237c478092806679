/* Ranks that meet K times.

   c/rvmc-cc -n 8 -DK=10 --memory 49152 --stack 4096 -o barrier_8_10.image c/schedules/barrier.c */
#include <mpi.h>

int main(int argc, char **argv)
{
    MPI_Init(&argc, &argv);
    for (int k = 0; k < K; k++)
        MPI_Barrier(MPI_COMM_WORLD);
    MPI_Finalize();
    return 0;
}
