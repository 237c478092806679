/* Cells whose ranks exchange the outer ones with both neighbours, K times.

   c/rvmc-cc -n 8 -DK=10 --memory 49152 --stack 4096 -o halo_8_10.image c/schedules/halo.c */
#include <mpi.h>
#include <stdio.h>

int main(int argc, char **argv)
{
    int rank, size, a[4];

    MPI_Init(&argc, &argv);
    MPI_Comm_rank(MPI_COMM_WORLD, &rank);
    MPI_Comm_size(MPI_COMM_WORLD, &size);
    a[1] = rank;
    a[2] = rank + 1;
    int left = (rank + size - 1) % size, right = (rank + 1) % size;
    for (int k = 0; k < K; k++) {
        MPI_Sendrecv(&a[2], 1, MPI_INT, right, 1, &a[0], 1, MPI_INT, left, 1, MPI_COMM_WORLD,
                     MPI_STATUS_IGNORE);
        MPI_Sendrecv(&a[1], 1, MPI_INT, left, 2, &a[3], 1, MPI_INT, right, 2, MPI_COMM_WORLD,
                     MPI_STATUS_IGNORE);
        int x = (a[0] + a[1] + a[2]) / 3, y = (a[1] + a[2] + a[3]) / 3;
        a[1] = x;
        a[2] = y;
    }
    printf("%d %d\n", a[1], a[2]);
    MPI_Finalize();
    return 0;
}
