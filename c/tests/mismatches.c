/* mismatches.c: collectives that don't match, each with its right twin. The ranks are in groups of four; the first of an image
   with -DFROM=N makes mistake N and the second mistake N + 1, and mismatches.expected has what a rank of the group says then.
   With -DRIGHT all groups do all of them without the mistake, and then what looks like one and is none. */
#include <mpi.h>
#include <stdio.h>

#ifndef FROM
#define FROM 1
#endif
#ifdef RIGHT
#define OF(mistake, right) (right)
#else
#define OF(mistake, right) (mistake)
#endif

enum { MISTAKES = 24 };

static MPI_Comm comm;
static int me, in[64], out[64], fours[4] = {1, 1, 1, 1}, places[4] = {0, 1, 2, 3}, twos[4] = {1, 1, 1, 2}, first_twos[4] = {2, 1, 1, 1};
static double numbers[64], others[64];
static MPI_Op own;

static void add(void *from, void *to, int *count, MPI_Datatype *type)
{
    (void)type;
    for (int i = 0; i < *count; i++)
        ((int *)to)[i] += ((int *)from)[i];
}

static void roots_and_calls(int number)
{
    int last = me == 3, first = me == 0;

    switch (number) {
    case 1:
        if (OF(first, 0))
            MPI_Barrier(comm);
        else
            MPI_Bcast(in, 1, MPI_INT, 0, comm);
        break;
    case 2: MPI_Bcast(in, 1, MPI_INT, OF(last, 0) ? 2 : 0, comm); break;
    case 3: MPI_Reduce(in, out, 1, MPI_INT, MPI_SUM, OF(last, 0) ? 2 : 0, comm); break;
    case 4: MPI_Reduce(in, out, 1, MPI_INT, OF(last, 0) ? MPI_MAX : MPI_SUM, 0, comm); break;
    case 5: MPI_Allreduce(in, out, 1, MPI_INT, OF(last, 1) ? own : MPI_SUM, comm); break;
    case 6:
        if (OF(last, 1))
            MPI_Allreduce(in, out, 1, MPI_INT, MPI_SUM, comm);
        else
            MPI_Reduce(in, out, 1, MPI_INT, MPI_SUM, 0, comm);
        break;
    case 7:
        if (OF(first, 1))
            MPI_Scan(in, out, 1, MPI_INT, MPI_SUM, comm);
        else
            MPI_Exscan(in, out, 1, MPI_INT, MPI_SUM, comm);
        break;
    case 8:
        if (OF(last, 1))
            MPI_Alltoall(in, 1, MPI_INT, out, 1, MPI_INT, comm);
        else
            MPI_Allgather(in, 1, MPI_INT, out, 1, MPI_INT, comm);
        break;
    case 9:
        if (OF(last, 1))
            MPI_Allgatherv(in, 1, MPI_INT, out, fours, places, MPI_INT, comm);
        else
            MPI_Allgather(in, 1, MPI_INT, out, 1, MPI_INT, comm);
        break;
    /* one rank goes round once more than the others, or once less */
    case 10:
        for (int i = 0; i < OF(last, 0) + 2; i++)
            MPI_Bcast(in, 1, MPI_INT, 0, comm);
        MPI_Barrier(comm);
        break;
    case 11:
        for (int i = 0; i < 2 - OF(last, 0); i++)
            MPI_Barrier(comm);
        MPI_Gather(in, 1, MPI_INT, out, 1, MPI_INT, 0, comm);
        break;
    case 12:
        if (OF(first, 0))
            MPI_Scatter(in, 1, MPI_INT, out, 1, MPI_INT, 0, comm);
        else
            MPI_Bcast(in, 1, MPI_INT, 0, comm);
        break;
    }
}

static void data(int number)
{
    int last = me == 3, first = me == 0;

    switch (number) {
    case 13: MPI_Bcast(in, OF(last, 0) ? 3 : 2, MPI_INT, 0, comm); break;
    case 14: MPI_Bcast(in, 2, OF(last, 0) ? MPI_FLOAT : MPI_INT, 0, comm); break;
    case 15: MPI_Gather(in, OF(last, 0) ? 1 : 2, MPI_INT, out, 2, MPI_INT, 0, comm); break;
    case 16: MPI_Gatherv(in, 1, MPI_INT, out, OF(first, 0) ? twos : fours, places, MPI_INT, 0, comm); break;
    case 17: MPI_Scatter(numbers, 1, MPI_DOUBLE, others, 1, OF(last, 0) ? MPI_LONG : MPI_DOUBLE, 0, comm); break;
    case 18: MPI_Scatterv(in, OF(first, 0) ? twos : fours, places, MPI_INT, out, 1, MPI_INT, 0, comm); break;
    case 19: MPI_Allgather(in, OF(last, 0) ? 2 : 1, MPI_INT, out, OF(last, 0) ? 2 : 1, MPI_INT, comm); break;
    case 20: MPI_Alltoallv(in, fours, places, MPI_INT, out, OF(last, 0) ? first_twos : fours, places, MPI_INT, comm); break;
    case 21: MPI_Reduce(numbers, others, 1, OF(last, 0) ? MPI_LONG : MPI_DOUBLE, MPI_SUM, 0, comm); break;
    case 22: MPI_Reduce_scatter(in, out, OF(last, 0) ? twos : fours, MPI_INT, MPI_SUM, comm); break;
    }
}

static void communicators(int number)
{
    int last = me == 3, dims[2] = {2, 2}, periods[2] = {0, 0};
    MPI_Comm made = MPI_COMM_NULL;

    switch (number) {
    case 23:
        if (OF(last, 0))
            MPI_Comm_dup(comm, &made);
        else
            MPI_Comm_split(comm, 0, 0, &made);
        break;
    case 24:
        MPI_Cart_create(comm, 2, dims, periods, 0, &made);
        MPI_Neighbor_alltoall(in, OF(last, 0) ? 2 : 1, MPI_INT, out, 1, MPI_INT, made);
        break;
    }
    if (made != MPI_COMM_NULL)
        MPI_Comm_free(&made);
}

#ifdef RIGHT
/* Counts and datatypes that differ, and whose elements are the same. */
static void alike(void)
{
    int last = me == 3;

    MPI_Bcast(in, last ? 2 : 4, last ? MPI_2INT : MPI_INT, 0, comm);
    MPI_Bcast(numbers, 3, last ? MPI_LONG : MPI_INT64_T, 0, comm);
    MPI_Bcast(in, last ? 8 : 2, last ? MPI_PACKED : MPI_INT, 0, comm);
    MPI_Gather(in, last ? 1 : 2, last ? MPI_2INT : MPI_INT, out, 1, MPI_2INT, 0, comm);
    MPI_Bcast(in, 0, last ? MPI_INT : MPI_DOUBLE, 0, comm);
    MPI_Reduce(in, out, 0, MPI_INT, MPI_SUM, 0, comm);
}
#endif

static void make(int number)
{
    roots_and_calls(number);
    data(number);
    communicators(number);
}

int main(int argc, char *argv[])
{
    int rank;

    MPI_Init(&argc, &argv);
    MPI_Comm_rank(MPI_COMM_WORLD, &rank);
    MPI_Comm_split(MPI_COMM_WORLD, rank / 4, 0, &comm);
    MPI_Comm_rank(comm, &me);
    MPI_Op_create(add, 1, &own);
#ifdef RIGHT
    for (int number = 1; number <= MISTAKES; number++)
        make(number);
    alike();
    MPI_Barrier(MPI_COMM_WORLD);
    printf("right\n");
#else
    make(FROM + rank / 4);
#endif
    MPI_Finalize();
    return 0;
}
