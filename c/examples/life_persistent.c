/* The game of life in bands of rows, whose edges move by persistent requests. The four transfers are the same in
   each generation, so they are described once, and then started and waited for again and again. MPI_Waitall
   leaves such a request inactive and doesn't free it; that is for MPI_Request_free.

   c/rvmc-cc -n 4 -o life_persistent.image c/examples/life_persistent.c && rvmc run < life_persistent.image */
#include "life.h"

static void describe(place_t at, band_t now, MPI_Request *requests)
{
    MPI_Recv_init(now[0], WIDTH, MPI_CHAR, at.above, DOWNWARDS, MPI_COMM_WORLD, &requests[0]);
    MPI_Recv_init(now[at.rows + 1], WIDTH, MPI_CHAR, at.below, UPWARDS, MPI_COMM_WORLD, &requests[1]);
    MPI_Send_init(now[1], WIDTH, MPI_CHAR, at.above, UPWARDS, MPI_COMM_WORLD, &requests[2]);
    MPI_Send_init(now[at.rows], WIDTH, MPI_CHAR, at.below, DOWNWARDS, MPI_COMM_WORLD, &requests[3]);
}

int main(int argc, char **argv)
{
    static band_t now, next;
    MPI_Request requests[4];
    place_t at;

    MPI_Init(&argc, &argv);
    at = life_place();
    life_begin(at, now);
    describe(at, now, requests);
    for (int t = 0; t < GENERATIONS; t++) {
        MPI_Startall(4, requests);
        MPI_Waitall(4, requests, MPI_STATUSES_IGNORE);
        life_step(at, now, next);
        memcpy(now[1], next[1], at.rows * WIDTH);
    }
    for (int i = 0; i < 4; i++)
        MPI_Request_free(&requests[i]);
    life_show(at, now);
    MPI_Finalize();
    return 0;
}
