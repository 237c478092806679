/* The game of life in bands of rows, whose edges move by MPI_Irecv and MPI_Isend. All four transfers are begun
   before one is waited for, so no order among the ranks is needed, and all four go on at once. Until MPI_Waitall
   returns, the halo mustn't be read, and the edges mustn't be changed.

   c/rvmc-cc -n 4 -o life_nonblocking.image c/examples/life_nonblocking.c && rvmc run < life_nonblocking.image */
#include "life.h"

static void exchange(place_t at, band_t now)
{
    MPI_Request requests[4];

    MPI_Irecv(now[0], WIDTH, MPI_CHAR, at.above, DOWNWARDS, MPI_COMM_WORLD, &requests[0]);
    MPI_Irecv(now[at.rows + 1], WIDTH, MPI_CHAR, at.below, UPWARDS, MPI_COMM_WORLD, &requests[1]);
    MPI_Isend(now[1], WIDTH, MPI_CHAR, at.above, UPWARDS, MPI_COMM_WORLD, &requests[2]);
    MPI_Isend(now[at.rows], WIDTH, MPI_CHAR, at.below, DOWNWARDS, MPI_COMM_WORLD, &requests[3]);
    MPI_Waitall(4, requests, MPI_STATUSES_IGNORE);
}

int main(int argc, char **argv)
{
    static band_t now, next;
    place_t at;

    MPI_Init(&argc, &argv);
    at = life_place();
    life_begin(at, now);
    for (int t = 0; t < GENERATIONS; t++) {
        exchange(at, now);
        life_step(at, now, next);
        memcpy(now[1], next[1], at.rows * WIDTH);
    }
    life_show(at, now);
    MPI_Finalize();
    return 0;
}
