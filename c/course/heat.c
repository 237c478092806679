/* Heat spreads along a rod of 12 cells, four in each rank. Two cells of its neighbours are a rank's halo, and four
   requests, described once, bring them in each step.

   c/rvmc-cc -n 3 -o heat.image c/course/heat.c */
#include <mpi.h>
#include <stdio.h>
#include <string.h>

enum { CELLS = 4, STEPS = 4, TO_LEFT = 1, TO_RIGHT = 2 };

int main(int argc, char **argv)
{
    int rank, size, left, right, now[CELLS + 2] = {0}, next[CELLS + 2];
    MPI_Request halo[4];

    MPI_Init(&argc, &argv);
    MPI_Comm_rank(MPI_COMM_WORLD, &rank);
    MPI_Comm_size(MPI_COMM_WORLD, &size);
    left = rank > 0 ? rank - 1 : MPI_PROC_NULL;
    right = rank < size - 1 ? rank + 1 : MPI_PROC_NULL;
    if (rank == 1)
        now[1] = 1600;
    MPI_Recv_init(&now[0], 1, MPI_INT, left, TO_RIGHT, MPI_COMM_WORLD, &halo[0]);
    MPI_Recv_init(&now[CELLS + 1], 1, MPI_INT, right, TO_LEFT, MPI_COMM_WORLD, &halo[1]);
    MPI_Send_init(&now[1], 1, MPI_INT, left, TO_LEFT, MPI_COMM_WORLD, &halo[2]);
    MPI_Send_init(&now[CELLS], 1, MPI_INT, right, TO_RIGHT, MPI_COMM_WORLD, &halo[3]);
    for (int step = 0; step < STEPS; step++) {
        MPI_Startall(4, halo);
        MPI_Waitall(4, halo, MPI_STATUSES_IGNORE);
        for (int i = 1; i <= CELLS; i++)
            next[i] = (now[i - 1] + 2 * now[i] + now[i + 1]) / 4;
        memcpy(&now[1], &next[1], CELLS * sizeof now[0]);
    }
    for (int i = 0; i < 4; i++)
        MPI_Request_free(&halo[i]);
    printf("%4d %4d %4d %4d\n", now[1], now[2], now[3], now[4]);
    MPI_Finalize();
    return 0;
}
