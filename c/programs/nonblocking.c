/* All collectives that don't wait, with the same arguments as those that do. Ten are on their way at one time, and are
   completed in other orders than they were begun in.

   c/rvmc-cc -n 4 -o nonblocking.image c/programs/nonblocking.c && rvmc run < nonblocking.image */
#include <mpi.h>
#include <stdio.h>
#include <string.h>

#define SIZE 4
#define ALL 17

static int rank;
static int counts[SIZE] = {1, 0, 3, 2}, places[SIZE] = {4, 0, 1, 5};
static int ones[SIZE] = {1, 1, 1, 1}, steps[SIZE] = {3, 2, 1, 0}, bytes[SIZE] = {0, 8, 4, 12};
static MPI_Datatype ints[SIZE] = {MPI_INT, MPI_INT, MPI_INT, MPI_INT};

static void fill(int out[ALL][8], int in[ALL][8])
{
    for (int i = 0; i < ALL; i++)
        for (int j = 0; j < 8; j++) {
            out[i][j] = 100 * rank + 10 * j + i;
            in[i][j] = -1;
        }
}

static void begin(int out[ALL][8], int in[ALL][8], MPI_Request *request)
{
    MPI_Comm c = MPI_COMM_WORLD;
    int n = counts[rank];

    MPI_Ibarrier(c, request++);
    MPI_Ibcast(rank == 1 ? out[1] : in[1], 3, MPI_INT, 1, c, request++);
    MPI_Igather(out[2], 2, MPI_INT, in[2], 2, MPI_INT, 0, c, request++);
    MPI_Igatherv(out[3], n, MPI_INT, in[3], counts, places, MPI_INT, 2, c, request++);
    MPI_Iscatter(out[4], 2, MPI_INT, in[4], 2, MPI_INT, 3, c, request++);
    MPI_Iscatterv(out[5], counts, places, MPI_INT, in[5], n, MPI_INT, 0, c, request++);
    MPI_Iallgather(out[6], 2, MPI_INT, in[6], 2, MPI_INT, c, request++);
    MPI_Iallgatherv(out[7], n, MPI_INT, in[7], counts, places, MPI_INT, c, request++);
    MPI_Ialltoall(out[8], 2, MPI_INT, in[8], 2, MPI_INT, c, request++);
    MPI_Ialltoallv(out[9], ones, steps, MPI_INT, in[9], ones, steps, MPI_INT, c, request++);
    MPI_Ialltoallw(out[10], ones, bytes, ints, in[10], ones, bytes, ints, c, request++);
    MPI_Ireduce(out[11], in[11], 3, MPI_INT, MPI_SUM, 1, c, request++);
    MPI_Iallreduce(out[12], in[12], 3, MPI_INT, MPI_MAX, c, request++);
    MPI_Ireduce_scatter(out[13], in[13], counts, MPI_INT, MPI_SUM, c, request++);
    MPI_Ireduce_scatter_block(out[14], in[14], 2, MPI_INT, MPI_MIN, c, request++);
    MPI_Iscan(out[15], in[15], 3, MPI_INT, MPI_SUM, c, request++);
    MPI_Iexscan(out[16], in[16], 3, MPI_INT, MPI_SUM, c, request++);
}

static void show(int in[ALL][8])
{
    for (int i = 1; i < ALL; i++) {
        printf("%d:", i);
        for (int j = 0; j < 8; j++)
            printf(" %d", in[i][j]);
        printf("\n");
    }
}

static void complete(MPI_Request *requests, int how)
{
    int left = ALL, index, done, flag, indices[ALL];

    switch (how) {
    case 0:
        MPI_Waitall(ALL, requests, MPI_STATUSES_IGNORE);
        break;
    case 1:
        while (left--)
            MPI_Wait(&requests[(left * 5 + 3) % ALL], MPI_STATUS_IGNORE);
        break;
    case 2:
        do
            MPI_Testall(ALL, requests, &flag, MPI_STATUSES_IGNORE);
        while (!flag);
        break;
    case 3:
        while (left--)
            MPI_Waitany(ALL, requests, &index, MPI_STATUS_IGNORE);
        break;
    default:
        for (; left > 0; left -= done)
            MPI_Waitsome(ALL, requests, &done, indices, MPI_STATUSES_IGNORE);
    }
}

static void in_place(void)
{
    int a[SIZE], b[SIZE], c[SIZE], d[SIZE];
    MPI_Request requests[4];

    for (int i = 0; i < SIZE; i++)
        a[i] = b[i] = c[i] = d[i] = 10 * rank + i;
    MPI_Iallgather(MPI_IN_PLACE, 0, MPI_DATATYPE_NULL, a, 1, MPI_INT, MPI_COMM_WORLD, &requests[0]);
    MPI_Ialltoall(MPI_IN_PLACE, 0, MPI_DATATYPE_NULL, b, 1, MPI_INT, MPI_COMM_WORLD, &requests[1]);
    MPI_Iallreduce(MPI_IN_PLACE, c, SIZE, MPI_INT, MPI_SUM, MPI_COMM_WORLD, &requests[2]);
    if (rank == 2)
        MPI_Igather(MPI_IN_PLACE, 0, MPI_DATATYPE_NULL, d, 1, MPI_INT, 2, MPI_COMM_WORLD, &requests[3]);
    else
        MPI_Igather(&d[1], 1, MPI_INT, 0, 0, MPI_DATATYPE_NULL, 2, MPI_COMM_WORLD, &requests[3]);
    for (int i = 3; i >= 0; i--)
        MPI_Wait(&requests[i], MPI_STATUS_IGNORE);
    for (int i = 0; i < SIZE; i++)
        printf("in place: %d %d %d %d\n", a[i], b[i], c[i], d[i]);
}

int main(int argc, char *argv[])
{
    int out[ALL][8], in[ALL][8];
    MPI_Request requests[ALL];

    MPI_Init(&argc, &argv);
    MPI_Comm_rank(MPI_COMM_WORLD, &rank);
    for (int how = 0; how < 5; how++) {
        fill(out, in);
        begin(out, in, requests);
        complete(requests, how);
        if (how == 0)
            show(in);
        for (int i = 0; i < ALL; i++)
            if (requests[i] != MPI_REQUEST_NULL)
                printf("a request is left\n");
        printf("%d: %d %d %d %d\n", how, in[1][0], in[6][7], in[12][2], in[15][1]);
    }
    in_place();
    MPI_Finalize();
    return 0;
}
