/* The game of life in bands of rows, whose edges move by MPI_Send and MPI_Recv. A standard send may wait until
   it is received. If all ranks of the ring sent first, all could wait for ever; so those with even numbers send
   first and the others receive first, and the ring has to be even.

   c/rvmc-cc -n 4 -o life_blocking.image c/examples/life_blocking.c && rvmc run < life_blocking.image */
#include "life.h"

static void send_row(char *row, int to, int tag)
{
    MPI_Send(row, WIDTH, MPI_CHAR, to, tag, MPI_COMM_WORLD);
}

static void receive_row(char *row, int from, int tag)
{
    MPI_Recv(row, WIDTH, MPI_CHAR, from, tag, MPI_COMM_WORLD, MPI_STATUS_IGNORE);
}

static void exchange(place_t at, band_t now)
{
    if (at.rank % 2 == 0) {
        send_row(now[1], at.above, UPWARDS);
        send_row(now[at.rows], at.below, DOWNWARDS);
        receive_row(now[at.rows + 1], at.below, UPWARDS);
        receive_row(now[0], at.above, DOWNWARDS);
    } else {
        receive_row(now[at.rows + 1], at.below, UPWARDS);
        receive_row(now[0], at.above, DOWNWARDS);
        send_row(now[1], at.above, UPWARDS);
        send_row(now[at.rows], at.below, DOWNWARDS);
    }
}

int main(int argc, char **argv)
{
    static band_t now, next;
    place_t at;

    MPI_Init(&argc, &argv);
    at = life_place();
    life_begin(at, now);
    for (int t = 0; t < GENERATIONS; t++) {
        exchange(at, now);
        life_step(at, now, next);
        memcpy(now[1], next[1], at.rows * WIDTH);
    }
    life_show(at, now);
    MPI_Finalize();
    return 0;
}
