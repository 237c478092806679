/* collectives.c: each collective with each root, some lengths, each datatype and each operation, against the same worked
   out by each rank alone. Any number of ranks. With -DCOUNT=N those that move bytes move N numbers; without it a few, with
   each root, and the reductions are tried. A rank that waits uses up its calls, so one run isn't enough for all. With
   -DLATER=1 each is the one that doesn't wait, which is waited for; with -DLATER=2 that is tested until it is complete; with
   -DLATER=3 it is a persistent one, which is started twice where that gives the same. */
#include <mpi.h>
#include <stdio.h>
#include <string.h>

#ifdef LATER
static MPI_Request request;

static int completed(int again)
{
    int flag = 0;

    for (int turn = 0; turn <= again; turn++) {
        if (LATER == 3)
            MPI_Start(&request);
        while (LATER == 2 && !flag)
            MPI_Test(&request, &flag, MPI_STATUS_IGNORE);
        MPI_Wait(&request, MPI_STATUS_IGNORE);
    }
    return LATER == 3 ? MPI_Request_free(&request) : MPI_SUCCESS;
}
#if LATER == 3
#define CALL(doesnt_wait, persistent, first, ...) \
    (persistent(first, __VA_ARGS__, MPI_INFO_NULL, &request), completed((first) != MPI_IN_PLACE))
#define MPI_Barrier(c) (MPI_Barrier_init(c, MPI_INFO_NULL, &request), completed(1))
#else
#define CALL(doesnt_wait, persistent, first, ...) (doesnt_wait(first, __VA_ARGS__, &request), completed(0))
#define MPI_Barrier(c) (MPI_Ibarrier(c, &request), completed(0))
#endif
#define MPI_Bcast(...) CALL(MPI_Ibcast, MPI_Bcast_init, __VA_ARGS__)
#define MPI_Gather(...) CALL(MPI_Igather, MPI_Gather_init, __VA_ARGS__)
#define MPI_Gatherv(...) CALL(MPI_Igatherv, MPI_Gatherv_init, __VA_ARGS__)
#define MPI_Scatter(...) CALL(MPI_Iscatter, MPI_Scatter_init, __VA_ARGS__)
#define MPI_Scatterv(...) CALL(MPI_Iscatterv, MPI_Scatterv_init, __VA_ARGS__)
#define MPI_Allgather(...) CALL(MPI_Iallgather, MPI_Allgather_init, __VA_ARGS__)
#define MPI_Allgatherv(...) CALL(MPI_Iallgatherv, MPI_Allgatherv_init, __VA_ARGS__)
#define MPI_Alltoall(...) CALL(MPI_Ialltoall, MPI_Alltoall_init, __VA_ARGS__)
#define MPI_Reduce(...) CALL(MPI_Ireduce, MPI_Reduce_init, __VA_ARGS__)
#define MPI_Allreduce(...) CALL(MPI_Iallreduce, MPI_Allreduce_init, __VA_ARGS__)
#define MPI_Scan(...) CALL(MPI_Iscan, MPI_Scan_init, __VA_ARGS__)
#define MPI_Exscan(...) CALL(MPI_Iexscan, MPI_Exscan_init, __VA_ARGS__)
#endif

#ifndef COUNT
#define COUNT (-1)
#endif

enum { MOST = 2600 };
static int a[8 * MOST], b[8 * MOST];
static long mine_room[MOST], got_room[MOST];
static int rank, size, bad;

static int value(int who, int i)
{
    return who * 100003 + i * 17 + 1;
}

static void wrong(const char *what, int count, int root)
{
    printf("rank %d: %s of %d, root %d\n", rank, what, count, root);
    bad++;
}

static int same(const int *x, int who, int from, int count)
{
    for (int i = 0; i < count; i++)
        if (x[i] != value(who, from + i))
            return 0;
    return 1;
}

static void set(int *x, int who, int count)
{
    for (int i = 0; i < count; i++)
        x[i] = value(who, i);
}

static void one_root(int count, int root, MPI_Comm c)
{
    int counts[8], places[8], ok = 1;

    set(a, rank == root ? root : 99, count);
    MPI_Bcast(a, count, MPI_INT, root, c);
    if (!same(a, root, 0, count))
        wrong("Bcast", count, root);
    set(a, rank, count);
    memset(b, 0, sizeof b);
    MPI_Gather(a, count, MPI_INT, b, count, MPI_INT, root, c);
    for (int r = 0; rank == root && r < size; r++)
        ok &= same(b + r * count, r, 0, count);
    if (!ok)
        wrong("Gather", count, root);
    for (int r = 0; r < size; r++) {
        counts[r] = count + r;
        places[r] = (size - 1 - r) * (count + 8);
    }
    set(a, rank, count + 8);
    memset(b, 0, sizeof b);
    MPI_Gatherv(a, count + rank, MPI_INT, b, counts, places, MPI_INT, root, c);
    for (int r = 0; rank == root && r < size; r++)
        ok &= same(b + places[r], r, 0, counts[r]) && b[places[r] + counts[r]] == 0;
    if (!ok)
        wrong("Gatherv", count, root);
    for (int r = 0; r < size; r++)
        set(b + places[r], r, count + 8);
    memset(a, 0, sizeof a);
    MPI_Scatterv(b, counts, places, MPI_INT, a, count + rank, MPI_INT, root, c);
    if (!same(a, rank, 0, count + rank) || a[count + rank])
        wrong("Scatterv", count, root);
    for (int r = 0; r < size; r++)
        set(b + r * count, r, count);
    memset(a, 0, sizeof a);
    MPI_Scatter(b, count, MPI_INT, a, count, MPI_INT, root, c);
    if (!same(a, rank, 0, count) || a[count])
        wrong("Scatter", count, root);
}

static void without_root(int count, MPI_Comm c)
{
    int ok = 1, counts[8], places[8];

    set(a, rank, count);
    memset(b, 0, sizeof b);
    MPI_Allgather(a, count, MPI_INT, b, count, MPI_INT, c);
    for (int r = 0; r < size; r++)
        ok &= same(b + r * count, r, 0, count);
    memset(b, 0, sizeof b);
    memcpy(b + rank * count, a, count * sizeof *a);
    MPI_Allgather(MPI_IN_PLACE, 0, MPI_INT, b, count, MPI_INT, c);
    for (int r = 0; r < size; r++)
        ok &= same(b + r * count, r, 0, count);
    for (int r = 0; r < size; r++) {
        counts[r] = count + 1;
        places[r] = r * (count + 1);
    }
    set(a, rank, count + 1);
    MPI_Allgatherv(a, count + 1, MPI_INT, b, counts, places, MPI_INT, c);
    for (int r = 0; r < size; r++)
        ok &= same(b + r * (count + 1), r, 0, count + 1);
    if (!ok)
        wrong("Allgather", count, -1);
    for (int r = 0; r < size; r++)
        for (int i = 0; i < count; i++)
            a[r * count + i] = value(rank * 10 + r, i);
    memset(b, 0, sizeof b);
    MPI_Alltoall(a, count, MPI_INT, b, count, MPI_INT, c);
    for (int r = 0; r < size; r++)
        ok &= same(b + r * count, r * 10 + rank, 0, count);
    if (!ok)
        wrong("Alltoall", count, -1);
    MPI_Barrier(c);
}

/* One operation of one datatype: the reduction, that of all, and both scans, in pieces and not. */
#define TRY(name, type, datatype, op, expression) \
    static void name(int count, int root, MPI_Comm c) \
    { \
        type *mine = (type *)mine_room, *got = (type *)got_room; \
        int ok = 1; \
        for (int i = 0; i < count; i++) \
            mine[i] = (type)((rank + i) % 3 + (i % 2)); \
        memset(got, 0, count * sizeof *got); \
        MPI_Reduce(mine, got, count, datatype, op, root, c); \
        for (int i = 0; rank == root && i < count; i++) \
            ok &= got[i] == fold_##name(0, size, i); \
        MPI_Allreduce(mine, got, count, datatype, op, c); \
        for (int i = 0; i < count; i++) \
            ok &= got[i] == fold_##name(0, size, i); \
        MPI_Scan(mine, got, count, datatype, op, c); \
        for (int i = 0; i < count; i++) \
            ok &= got[i] == fold_##name(0, rank + 1, i); \
        MPI_Exscan(mine, got, count, datatype, op, c); \
        for (int i = 0; rank && i < count; i++) \
            ok &= got[i] == fold_##name(0, rank, i); \
        memcpy(got, mine, count * sizeof *got); \
        MPI_Allreduce(MPI_IN_PLACE, got, count, datatype, op, c); \
        for (int i = 0; i < count; i++) \
            ok &= got[i] == fold_##name(0, size, i); \
        if (!ok) \
            wrong(#name, count, root); \
    }
#define FOLD(name, type, expression) \
    static type fold_##name(int from, int to, int i) \
    { \
        type x = (type)((from + i) % 3 + (i % 2)); \
        for (int r = from + 1; r < to; r++) { \
            type y = (type)((r + i) % 3 + (i % 2)); \
            x = (type)(expression); \
        } \
        return x; \
    }
#define BOTH(name, type, datatype, op, expression) FOLD(name, type, expression) TRY(name, type, datatype, op, expression)
#define ARITHMETIC(type, short_name, datatype) \
    BOTH(short_name##_sum, type, datatype, MPI_SUM, x + y) \
    BOTH(short_name##_prod, type, datatype, MPI_PROD, x * y) \
    BOTH(short_name##_max, type, datatype, MPI_MAX, x > y ? x : y) \
    BOTH(short_name##_min, type, datatype, MPI_MIN, x < y ? x : y) \
    static void short_name##_arithmetic(int n, int r, MPI_Comm c) \
    { \
        short_name##_sum(n, r, c); \
        short_name##_prod(n, r, c); \
        short_name##_max(n, r, c); \
        short_name##_min(n, r, c); \
    }
#define WHOLE(type, short_name, datatype) \
    ARITHMETIC(type, short_name, datatype) \
    BOTH(short_name##_land, type, datatype, MPI_LAND, x && y) \
    BOTH(short_name##_lor, type, datatype, MPI_LOR, x || y) \
    BOTH(short_name##_lxor, type, datatype, MPI_LXOR, !x != !y) \
    BOTH(short_name##_band, type, datatype, MPI_BAND, x & y) \
    BOTH(short_name##_bor, type, datatype, MPI_BOR, x | y) \
    BOTH(short_name##_bxor, type, datatype, MPI_BXOR, x ^ y) \
    static void short_name##_all(int n, int r, MPI_Comm c) \
    { \
        short_name##_arithmetic(n, r, c); \
        if (size > 1) { \
            short_name##_land(n, r, c); \
            short_name##_lor(n, r, c); \
            short_name##_lxor(n, r, c); \
        } \
        short_name##_band(n, r, c); \
        short_name##_bor(n, r, c); \
        short_name##_bxor(n, r, c); \
    }
WHOLE(signed char, sc, MPI_CHAR)
WHOLE(unsigned char, uc, MPI_UNSIGNED_CHAR)
WHOLE(short, sh, MPI_SHORT)
WHOLE(unsigned short, us, MPI_UNSIGNED_SHORT)
WHOLE(int, in, MPI_INT)
WHOLE(unsigned, un, MPI_UNSIGNED)
WHOLE(long, lo, MPI_LONG)
WHOLE(unsigned long, ul, MPI_UNSIGNED_LONG)
ARITHMETIC(float, fl, MPI_FLOAT)
ARITHMETIC(double, db, MPI_DOUBLE)

static void reductions(int count, int root, MPI_Comm c)
{
    sc_all(count, root, c);
    uc_all(count, root, c);
    sh_all(count, root, c);
    us_all(count, root, c);
    in_all(count, root, c);
    un_all(count, root, c);
    lo_all(count, root, c);
    ul_all(count, root, c);
    fl_arithmetic(count, root, c);
    db_arithmetic(count, root, c);
}

static void all_of(MPI_Comm c)
{
    MPI_Comm_rank(c, &rank);
    MPI_Comm_size(c, &size);
    if (COUNT >= 0) {
        one_root(COUNT, size / 2, c);
        without_root(COUNT, c);
        in_sum(COUNT, size / 2, c);
        return;
    }
    for (int root = 0; root < size; root++)
        one_root(3, root, c);
    reductions(3, size - 1, c);
    db_sum(150, 0, c);
}

int main(int argc, char **argv)
{
    int all, world;

    MPI_Init(&argc, &argv);
    all_of(MPI_COMM_WORLD);
#ifdef PART
    if (MPI_Comm_rank(MPI_COMM_WORLD, &world), PART & 1 << world)
        all_of(RVMC_COMM(1));
#endif
    MPI_Comm_rank(MPI_COMM_WORLD, &world);
    MPI_Reduce(&bad, &all, 1, MPI_INT, MPI_SUM, 0, MPI_COMM_WORLD);
    if (world == 0)
        printf("%d wrong\n", all);
    MPI_Finalize();
    return 0;
}
