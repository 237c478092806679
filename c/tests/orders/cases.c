/* cases.c: two collectives in one order on some ranks, and in the other order on the others; or, right, in one order on all. run-all
   writes calls.h, with a function for the calls of its table, and the numbers behind the mark; under MPICH they are words.
   The ranks are in groups, all at once, each with its own communicator, a ring. */
#include <mpi.h>
#include <stdio.h>
#include <stdlib.h>

enum { RIGHT = 1, IN_PLACE = 2, RETURNED = 4, ABORTED = 8, LEFT_OUT = 16, TWIN = 32 };
enum { BLOCKING, NONBLOCKING, PERSISTENT };
enum { MOST = 8, SIZE = 0, MODE, FIRST, SECOND = FIRST + MOST };

/* how many ranks a group has, the mode, and for each group its first call and its second one: 100 times the kind, and which */
static volatile int given[2 + SECOND + MOST] = {0x6f726465, 0x72732e63, 2, RIGHT};

static MPI_Comm ring;
static int me, size, mode;
static int ins[2][32], outs[2][32], counts[MOST], places[MOST], alike[MOST], bytes[MOST], ones[MOST];
static MPI_Aint offsets[MOST];
static MPI_Datatype types[MOST];

#include "calls.h"

static void prepare(void)
{
    for (int r = 0; r < MOST; r++) {
        counts[r] = 1 + r % 2;
        alike[r] = 1 + (me + r) % 2;
        places[r] = 2 * r;
        bytes[r] = (int)sizeof(int) * places[r];
        offsets[r] = bytes[r];
        ones[r] = 1;
        types[r] = MPI_INT;
    }
}

/* Both calls, and what is left to do of them. */
static void both(int first, int second)
{
    MPI_Request requests[2] = {MPI_REQUEST_NULL, MPI_REQUEST_NULL};

    call(first / 100, first % 100, 0, &requests[0]);
    if (second >= 0)
        call(second / 100, second % 100, 1, &requests[1]);
    if (first / 100 == PERSISTENT)
        MPI_Start(&requests[0]);
    if (second / 100 == PERSISTENT)
        MPI_Start(&requests[1]);
    MPI_Waitall(2, requests, MPI_STATUSES_IGNORE);
    for (int i = 0; i < 2; i++)
        if (requests[i] != MPI_REQUEST_NULL)
            MPI_Request_free(&requests[i]);
}

/* The pairs of which the first one has a number of this group's: all of them, or some. */
static void right(int group, int groups)
{
    int step = mode == RIGHT ? 1 : 7;

    for (int kind = BLOCKING; kind <= PERSISTENT; kind++)
        for (int first = group; first < CALLS; first += groups)
            for (int distance = 1; distance < CALLS; distance += step)
                both(100 * kind + first, 100 * (step == 1 ? kind : (kind + 1) % 3) + (first + distance) % CALLS);
}

int main(int argc, char **argv)
{
    int rank, ranks, group, periodic = 1;
    MPI_Comm half;

    MPI_Init(&argc, &argv);
    for (int i = 1; i < argc && i < SECOND + MOST; i++)
        given[1 + i] = atoi(argv[i]);
    size = given[2 + SIZE];
    mode = given[2 + MODE];
    MPI_Comm_rank(MPI_COMM_WORLD, &rank);
    MPI_Comm_size(MPI_COMM_WORLD, &ranks);
    group = rank / size;
    MPI_Comm_split(MPI_COMM_WORLD, group, 0, &half);
    MPI_Cart_create(half, 1, &size, &periodic, 0, &ring);
    MPI_Comm_rank(ring, &me);
    prepare();
    if (mode & RETURNED)
        MPI_Comm_set_errhandler(ring, MPI_ERRORS_RETURN);
    if (mode & RIGHT)
        right(group, ranks / size);
    else if (mode & LEFT_OUT && me == size - 1)
        both(given[2 + FIRST + group], -1);
    else if ((me % 2 == 0 || mode & TWIN) && !(mode & LEFT_OUT))
        both(given[2 + FIRST + group], given[2 + SECOND + group]);
    else if (!(mode & LEFT_OUT))
        both(given[2 + SECOND + group], given[2 + FIRST + group]);
    if (mode & ABORTED && me == size - 1)
        MPI_Abort(MPI_COMM_WORLD, 5);
    MPI_Comm_free(&ring);
    MPI_Comm_free(&half);
    printf("through\n");
    MPI_Finalize();
    return 0;
}
