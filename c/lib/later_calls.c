/* later_calls.c: the collectives that don't wait, and those that a program makes persistent: what each rank gives and takes. */
#define RVMC_OF_DERIVED
#define RVMC_REDUCTIONS
#include "derived_calls.h"
#include "../mpi.h"
#include "errors.h"
#include "folding.h"
#include "group.h"
#include "later.h"

#define OUT {"sendbuf", "sendcount", "sendtype", "sendcounts"}
#define IN {"recvbuf", "recvcount", "recvtype", "recvcounts"}

/* --- what is given and taken --- */

static void check(struct group *g, const struct side *s, unsigned parts)
{
    for (int i = 0; i < g->size && !g->code; i++) {
        MPI_Datatype type;
        long count;

        if (!(parts & bit(i)))
            continue;
        type = side_type(s, i);
        count = side_count(s, i);
        if (!is_type(type))
            fault(g, RVMC_BAD_TYPE, s->names[2], type, 0);
        else if (count < 0)
            fault(g, RVMC_BAD_COUNT, s->names[s->counts ? 3 : 1], count, 0);
        else if (count && (s->buffer == MPI_IN_PLACE || (!s->buffer && RVMC_SIZE_OF(type))))
            fault(g, RVMC_BAD_BUFFER, s->names[0], (long)s->buffer, 0);
    }
}

/* This rank's own part, of the same length on both sides. */
static void copy_own(struct later *l)
{
    struct group *g = &l->g;
    long size, room;

    l->own = 1;
    if (g->code)
        return;
    size = bytes_of(side_count(&l->out, g->me), side_type(&l->out, g->me));
    room = bytes_of(side_count(&l->in, g->me), side_type(&l->in, g->me));
    if (size != room)
        fault(g, RVMC_OTHER_COUNT, 0, rvmc_rank, room);
    else if (size && rvmc_side_place(&l->out, g->me) == rvmc_side_place(&l->in, g->me))
        fault(g, RVMC_ALIASED, "recvbuf", (long)rvmc_side_place(&l->in, g->me), 0);
}

static void barrier(struct later *l)
{
    l->out = l->in = (struct side){.same = 1, .type = MPI_BYTE};
    l->to = l->from = others(&l->g);
}

static void bcast(struct later *l, void *buffer, int count, MPI_Datatype type)
{
    l->out = l->in = (struct side){buffer, 1, count, type, 0, 0, 0, 0, {"buffer", "count", "datatype", 0}};
    check(&l->g, &l->out, bit(0));
    if (l->g.me == l->g.root)
        l->to = others(&l->g);
    else
        l->from = bit(l->g.root);
}

static void gather(struct later *l)
{
    struct group *g = &l->g;

    l->out.same = 1;
    if (g->me != g->root) {
        check(g, &l->out, bit(0));
        l->to = bit(g->root);
        return;
    }
    check(g, &l->in, everybody(g));
    l->from = others(g);
    if (l->out.buffer == MPI_IN_PLACE)
        return;
    check(g, &l->out, bit(0));
    copy_own(l);
}

static void scatter(struct later *l)
{
    struct group *g = &l->g;

    l->in.same = 1;
    if (g->me != g->root) {
        check(g, &l->in, bit(0));
        l->from = bit(g->root);
        return;
    }
    check(g, &l->out, everybody(g));
    l->to = others(g);
    if (l->in.buffer == MPI_IN_PLACE)
        return;
    check(g, &l->in, bit(0));
    copy_own(l);
}

static void gather_all(struct later *l)
{
    struct group *g = &l->g;

    check(g, &l->in, everybody(g));
    l->to = l->from = others(g);
    if (l->out.buffer == MPI_IN_PLACE) {
        if (!g->code)
            l->out = (struct side){rvmc_side_place(&l->in, g->me), 1, (int)side_count(&l->in, g->me), l->in.type, 0, 0, 0, 0, OUT};
        return;
    }
    l->out.same = 1;
    check(g, &l->out, bit(0));
    copy_own(l);
}

/* In place all is sent before the first part is overwritten. */
static void exchange(struct later *l)
{
    struct group *g = &l->g;

    check(g, &l->in, everybody(g));
    l->to = l->from = others(g);
    if (l->out.buffer == MPI_IN_PLACE) {
        l->out = l->in;
        return;
    }
    check(g, &l->out, everybody(g));
    copy_own(l);
}

/* --- reductions --- */

/* Whether the operation is one of the datatype: tried on one element. */
static void check_op(struct later *l, MPI_Op op, MPI_Datatype type, rvmc_fold *fold)
{
    _Alignas(16) char into[32] = {0}, before[32] = {0};
    struct group *g = &l->g;

    l->function = rvmc_own_op(op);
    l->fold = fold;
    if (g->code || l->function)
        return;
    if (op < MPI_MAX || op > MPI_MAXLOC)
        fault(g, RVMC_BAD_OP, "op", 0, type);
    else if (!fold || fold(into, before, 1, op))
        fault(g, RVMC_BAD_OP, "op", op, type);
}

/* From and to, and so many elements for each rank, or for all. Who folds and gives is said by the caller. */
static void fold(struct later *l, const void *from, void *to, const int *counts, int count, MPI_Datatype type, MPI_Op op,
                 rvmc_fold *how)
{
    struct group *g = &l->g;
    const void *mine = from == MPI_IN_PLACE ? to : from;
    long all = 0;

    l->out = (struct side){mine, !counts, count, type, counts, 0, 0, 0, {"sendbuf", "count", "datatype", "recvcounts"}};
    l->in = (struct side){to, 1, count, type, 0, 0, 0, 0, {"recvbuf", "count", "datatype", 0}};
    check(g, &l->out, everybody(g));
    check_op(l, op, type, how);
    for (int r = 0; r < g->size && !g->code; r++)
        all = counts ? all + counts[r] : count;
    l->count = counts && !g->code ? counts[g->me] : count;
    g->op = op;
    rvmc_whole(g, all, type);
}

/* This rank gets a result. */
static void fold_ranks(struct later *l, const void *from, void *to, unsigned ranks)
{
    struct group *g = &l->g;

    l->folded = ranks;
    if (!ranks || !l->count)
        return;
    if (!to && RVMC_SIZE_OF(l->out.type))
        fault(g, RVMC_BAD_BUFFER, "recvbuf", 0, 0);
    if (to == MPI_IN_PLACE)
        fault(g, RVMC_IN_PLACE, "recvbuf", (long)to, 0);
    if (from == to)
        fault(g, RVMC_ALIASED, "recvbuf", (long)to, 0);
}

static void reduce(struct later *l, const void *from, void *to, int count, MPI_Datatype type, MPI_Op op, rvmc_fold *how)
{
    struct group *g = &l->g;

    fold(l, from, to, 0, count, type, op, how);
    if (g->me == g->root) {
        fold_ranks(l, from, to, everybody(g));
        return;
    }
    l->to = bit(g->root);
    if (from == MPI_IN_PLACE)
        fault(g, RVMC_IN_PLACE, "sendbuf", (long)from, 0);
}

static void reduce_for_all(struct later *l, const void *from, void *to, int count, MPI_Datatype type, MPI_Op op,
                           rvmc_fold *how)
{
    fold(l, from, to, 0, count, type, op, how);
    l->to = others(&l->g);
    fold_ranks(l, from, to, everybody(&l->g));
}

static void reduce_parts(struct later *l, const void *from, void *to, const int *counts, int count, MPI_Datatype type,
                         MPI_Op op, rvmc_fold *how)
{
    fold(l, from, to, counts, count, type, op, how);
    l->out.same = 0;
    if (!counts && !l->g.code) {
        l->g.whole = 0;
        rvmc_whole(&l->g, (long)count * l->g.size, type);
    }
    l->to = others(&l->g);
    fold_ranks(l, from, to, everybody(&l->g));
}

/* Exclusive, a rank's own data aren't in its result (6.11). */
static void scan(struct later *l, const void *from, void *to, int count, MPI_Datatype type, MPI_Op op, rvmc_fold *how,
                 int exclusive)
{
    struct group *g = &l->g;
    unsigned before = bit(g->me) - 1;

    fold(l, from, to, 0, count, type, op, how);
    l->to = others(g) & ~before;
    fold_ranks(l, from, to, exclusive ? before : before | bit(g->me));
}

/* --- the calls: each that doesn't wait, and each that is made persistent --- */

#define BOTH(doesnt_wait, persistent, group, described, ...) \
    int doesnt_wait(__VA_ARGS__, MPI_Request *request) \
    { \
        struct later l = {.g = group(#doesnt_wait)}; \
        described; \
        return rvmc_later_begin(&l, request); \
    } \
    int persistent(__VA_ARGS__, MPI_Info info, MPI_Request *request) \
    { \
        struct later l = {.g = group(#persistent)}; \
        (void)info; \
        described; \
        return rvmc_later_init(&l, request); \
    }
#define BOTH_FOLDING(doesnt_wait, persistent, group, described, ...) \
    int doesnt_wait(__VA_ARGS__, MPI_Request *request, rvmc_fold *how) \
    { \
        struct later l = {.g = group(#doesnt_wait)}; \
        described; \
        return rvmc_later_begin(&l, request); \
    } \
    int persistent(__VA_ARGS__, MPI_Info info, MPI_Request *request, rvmc_fold *how) \
    { \
        struct later l = {.g = group(#persistent)}; \
        (void)info; \
        described; \
        return rvmc_later_init(&l, request); \
    }
#define ALL(call) rvmc_group(call, c)
#define ROOTED(call) rvmc_rooted(call, c, root)
/* both sides: the datatype or its array, counts or a count, and places */
#define SIDES(out_count, out_type, out_counts, out_places, out_types, in_count, in_type, in_counts, in_places, in_types) \
    l.out = (struct side){out, 0, out_count, out_type, out_counts, out_places, 0, out_types, OUT}; \
    l.in = (struct side){in, 0, in_count, in_type, in_counts, in_places, 0, in_types, IN};
#define OF_ONE SIDES(out_count, out_type, 0, 0, 0, in_count, in_type, 0, 0, 0)

BOTH(MPI_Ibarrier, MPI_Barrier_init, ALL, barrier(&l), MPI_Comm c)
BOTH(MPI_Ibcast, MPI_Bcast_init, ROOTED, bcast(&l, buffer, count, type), void *buffer, int count, MPI_Datatype type, int root,
     MPI_Comm c)
BOTH(MPI_Igather, MPI_Gather_init, ROOTED, OF_ONE gather(&l), const void *out, int out_count, MPI_Datatype out_type, void *in,
     int in_count, MPI_Datatype in_type, int root, MPI_Comm c)
BOTH(MPI_Igatherv, MPI_Gatherv_init, ROOTED,
     SIDES(out_count, out_type, 0, 0, 0, 0, in_type, in_counts, places, 0) gather(&l),
     const void *out, int out_count, MPI_Datatype out_type, void *in, const int in_counts[], const int places[],
     MPI_Datatype in_type, int root, MPI_Comm c)
BOTH(MPI_Iscatter, MPI_Scatter_init, ROOTED, OF_ONE scatter(&l), const void *out, int out_count, MPI_Datatype out_type,
     void *in, int in_count, MPI_Datatype in_type, int root, MPI_Comm c)
BOTH(MPI_Iscatterv, MPI_Scatterv_init, ROOTED,
     SIDES(0, out_type, out_counts, places, 0, in_count, in_type, 0, 0, 0) scatter(&l),
     const void *out, const int out_counts[], const int places[], MPI_Datatype out_type, void *in, int in_count,
     MPI_Datatype in_type, int root, MPI_Comm c)
BOTH(MPI_Iallgather, MPI_Allgather_init, ALL, OF_ONE gather_all(&l), const void *out, int out_count, MPI_Datatype out_type,
     void *in, int in_count, MPI_Datatype in_type, MPI_Comm c)
BOTH(MPI_Iallgatherv, MPI_Allgatherv_init, ALL,
     SIDES(out_count, out_type, 0, 0, 0, 0, in_type, in_counts, places, 0) gather_all(&l),
     const void *out, int out_count, MPI_Datatype out_type, void *in, const int in_counts[], const int places[],
     MPI_Datatype in_type, MPI_Comm c)
BOTH(MPI_Ialltoall, MPI_Alltoall_init, ALL, OF_ONE exchange(&l), const void *out, int out_count, MPI_Datatype out_type,
     void *in, int in_count, MPI_Datatype in_type, MPI_Comm c)
BOTH(MPI_Ialltoallv, MPI_Alltoallv_init, ALL,
     SIDES(0, out_type, out_counts, out_places, 0, 0, in_type, in_counts, in_places, 0) exchange(&l),
     const void *out, const int out_counts[], const int out_places[], MPI_Datatype out_type, void *in, const int in_counts[],
     const int in_places[], MPI_Datatype in_type, MPI_Comm c)
BOTH(MPI_Ialltoallw, MPI_Alltoallw_init, ALL,
     SIDES(0, 0, out_counts, out_places, out_types, 0, 0, in_counts, in_places, in_types) exchange(&l),
     const void *out, const int out_counts[], const int out_places[], const MPI_Datatype out_types[], void *in,
     const int in_counts[], const int in_places[], const MPI_Datatype in_types[], MPI_Comm c)

BOTH_FOLDING(MPI_Ireduce, MPI_Reduce_init, ROOTED, reduce(&l, from, to, count, type, op, how), const void *from, void *to,
             int count, MPI_Datatype type, MPI_Op op, int root, MPI_Comm c)
BOTH_FOLDING(MPI_Iallreduce, MPI_Allreduce_init, ALL, reduce_for_all(&l, from, to, count, type, op, how), const void *from,
             void *to, int count, MPI_Datatype type, MPI_Op op, MPI_Comm c)
BOTH_FOLDING(MPI_Ireduce_scatter, MPI_Reduce_scatter_init, ALL, reduce_parts(&l, from, to, counts, 0, type, op, how),
             const void *from, void *to, const int counts[], MPI_Datatype type, MPI_Op op, MPI_Comm c)
BOTH_FOLDING(MPI_Ireduce_scatter_block, MPI_Reduce_scatter_block_init, ALL, reduce_parts(&l, from, to, 0, count, type, op, how),
             const void *from, void *to, int count, MPI_Datatype type, MPI_Op op, MPI_Comm c)
BOTH_FOLDING(MPI_Iscan, MPI_Scan_init, ALL, scan(&l, from, to, count, type, op, how, 0), const void *from, void *to, int count,
             MPI_Datatype type, MPI_Op op, MPI_Comm c)
BOTH_FOLDING(MPI_Iexscan, MPI_Exscan_init, ALL, scan(&l, from, to, count, type, op, how, 1), const void *from, void *to,
             int count, MPI_Datatype type, MPI_Op op, MPI_Comm c)
