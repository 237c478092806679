/* The game of life in bands of rows, whose edges move in pieces by partitioned requests. A piece of an edge goes
   to the neighbour as soon as it is there, by MPI_Pready, while the rest of the band isn't yet. The neighbour
   may cut the row as it likes: here it takes it as a whole. Each of the eight transfers needs a link of the
   image.

   c/rvmc-cc -n 4 --link 0,1 --link 1,2 --link 2,3 --link 3,0 --link 1,0 --link 2,1 --link 3,2 --link 0,3 \
       -o life_partitioned.image c/examples/life_partitioned.c && rvmc run < life_partitioned.image */
#include "life.h"

enum { PIECES = 3, PIECE = WIDTH / PIECES };

/* which of the four requests is which */
enum { FROM_ABOVE, FROM_BELOW, TO_ABOVE, TO_BELOW, REQUESTS };

static void describe(place_t at, band_t now, MPI_Request *requests)
{
    char *first = now[1], *last = now[at.rows];

    MPI_Psend_init(first, PIECES, PIECE, MPI_CHAR, at.above, UPWARDS, MPI_COMM_WORLD, MPI_INFO_NULL,
                   &requests[TO_ABOVE]);
    MPI_Psend_init(last, PIECES, PIECE, MPI_CHAR, at.below, DOWNWARDS, MPI_COMM_WORLD, MPI_INFO_NULL,
                   &requests[TO_BELOW]);
    MPI_Precv_init(now[0], 1, WIDTH, MPI_CHAR, at.above, DOWNWARDS, MPI_COMM_WORLD, MPI_INFO_NULL,
                   &requests[FROM_ABOVE]);
    MPI_Precv_init(now[at.rows + 1], 1, WIDTH, MPI_CHAR, at.below, UPWARDS, MPI_COMM_WORLD, MPI_INFO_NULL,
                   &requests[FROM_BELOW]);
}

/* makes `next` the present generation: the edges first, each piece handed over at once, then the rows between */
static void settle(place_t at, band_t now, band_t next, MPI_Request *requests)
{
    MPI_Startall(REQUESTS, requests);
    for (int piece = 0; piece < PIECES; piece++) {
        int from = piece * PIECE;

        memcpy(&now[1][from], &next[1][from], PIECE);
        MPI_Pready(piece, requests[TO_ABOVE]);
        memcpy(&now[at.rows][from], &next[at.rows][from], PIECE);
        MPI_Pready(piece, requests[TO_BELOW]);
    }
    for (int y = 2; y < at.rows; y++)
        memcpy(now[y], next[y], WIDTH);
    MPI_Waitall(REQUESTS, requests, MPI_STATUSES_IGNORE);
}

int main(int argc, char **argv)
{
    static band_t now, next;
    MPI_Request requests[REQUESTS];
    place_t at;

    MPI_Init(&argc, &argv);
    at = life_place();
    describe(at, now, requests);
    life_begin(at, next);
    settle(at, now, next, requests);
    for (int t = 0; t < GENERATIONS; t++) {
        life_step(at, now, next);
        settle(at, now, next, requests);
    }
    for (int i = 0; i < REQUESTS; i++)
        MPI_Request_free(&requests[i]);
    life_show(at, now);
    MPI_Finalize();
    return 0;
}
