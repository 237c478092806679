/* reductions.c: MPI 4.1, 6.9 to 6.11. Sums of floating-point numbers depend on the order: it is that of the tree, the same in
   each run. Operations that don't commute are done in the order of the ranks. */
#define RVMC_REDUCTIONS
#include <string.h>
#include "../mpi.h"
#include "errors.h"
#include "folding.h"
#include "group.h"

enum { FOLDED = 1024, OWN_OPS = 64 };             /* bytes that a reduction carries at once, on the stack */
#define BUFFER(name) _Alignas(16) char name[FOLDED]

static struct {
    MPI_User_function *function;
    int commutes;
} own[OWN_OPS];

int MPI_Op_create(MPI_User_function *function, int commutes, MPI_Op *op)
{
    for (int i = 0; i < OWN_OPS; i++)
        if (!own[i].function) {
            own[i].function = function;
            own[i].commutes = commutes;
            *op = RVMC_OWN_OPS + i;
            return MPI_SUCCESS;
        }
    *op = MPI_OP_NULL;
    return rvmc_no_room("MPI_Op_create", OWN_OPS, "operations");
}

static int is_own(MPI_Op op)
{
    return op >= RVMC_OWN_OPS && op < RVMC_OWN_OPS + OWN_OPS && own[op - RVMC_OWN_OPS].function;
}

MPI_User_function *rvmc_own_op(MPI_Op op)
{
    return is_own(op) ? own[op - RVMC_OWN_OPS].function : 0;
}

static int commutes(MPI_Op op)
{
    return !is_own(op) || own[op - RVMC_OWN_OPS].commutes;
}

static int wrong_op(const char *call, MPI_Op op)
{
    struct group g = {.call = call, .communicator = MPI_COMM_WORLD, .code = RVMC_BAD_OP, .argument = "op", .value = op};

    return finish(&g);
}

int MPI_Op_free(MPI_Op *op)
{
    if (!is_own(*op))
        return wrong_op("MPI_Op_free", 0);
    own[*op - RVMC_OWN_OPS].function = 0;
    *op = MPI_OP_NULL;
    return MPI_SUCCESS;
}

int MPI_Op_commutative(MPI_Op op, int *answer)
{
    if (!is_own(op) && (op < MPI_MAX || op > MPI_MAXLOC))
        return wrong_op("MPI_Op_commutative", 0);
    *answer = commutes(op);
    return MPI_SUCCESS;
}

/* What a reduction folds, and how. */
struct folding {
    MPI_Datatype type;
    MPI_Op op;
    rvmc_fold *fold;
    long size;
};

/* into becomes: before, op, into. */
static void fold(struct group *g, const struct folding *f, void *into, void *before, long count)
{
    int length = (int)count;
    MPI_Datatype type = f->type;

    if (g->code || !count)
        return;
    if (is_own(f->op))
        own[f->op - RVMC_OWN_OPS].function(before, into, &length, &type);
    else
        f->fold(into, before, count, f->op);
}

/* Whether there is something to fold, and the operation is one of the datatype: tried on one element, for a rank that folds
   nothing asks too. All messages say what the whole call folds. */
static struct folding folding(struct group *g, const void *from, int count, MPI_Datatype type, MPI_Op op, rvmc_fold *fold)
{
    _Alignas(16) char into[32] = {0}, before[32] = {0};
    struct folding f = {type, op, fold, RVMC_SIZE_OF(type)};

    if (count < 0)
        fault(g, RVMC_BAD_COUNT, "count", count, 0);
    if (!f.size)
        fault(g, RVMC_BAD_TYPE, "datatype", type, 0);
    if (!from && count)
        fault(g, RVMC_BAD_BUFFER, "sendbuf", 0, 0);
    if (!g->code && !is_own(op) && (op < MPI_MAX || op > MPI_MAXLOC))
        fault(g, RVMC_BAD_OP, "op", 0, type);
    if (!g->code && !is_own(op) && (!fold || fold(into, before, 1, op)))
        fault(g, RVMC_BAD_OP, "op", op, type);
    g->op = op;
    rvmc_whole(g, count, type);
    return f;
}

/* Where the result comes: to a buffer that is one, and another than that of what is given. */
static void wanted(struct group *g, const void *from, const void *to, int count)
{
    if (!to && count > 0)
        fault(g, RVMC_BAD_BUFFER, "recvbuf", 0, 0);
    if (to == MPI_IN_PLACE)
        fault(g, RVMC_IN_PLACE, "recvbuf", (long)to, 0);
    if (from == to && count > 0)
        fault(g, RVMC_ALIASED, "recvbuf", (long)to, 0);
}

static long least(long a, long b)
{
    return a < b ? a : b;
}

/* One part up the tree of MPI_Bcast, to the place whose number is 0. In a subtree are places that follow each other. Returns
   where the result is, of one of two rooms. */
RVMC_INLINE char *climb(struct group *g, const struct folding *f, char *mine, char *others, long n, int root)
{
    int place = (g->me - root + g->size) % g->size, bit = 1;

    for (; bit < g->size && !(place & bit); bit *= 2)
        if (place + bit < g->size) {
            char *lower = mine;

            take(g, others, n, f->type, (place + bit + root) % g->size);
            fold(g, f, others, mine, n);
            mine = others;
            others = lower;
        }
    if (place)
        give(g, mine, n, f->type, (place - bit + root) % g->size);
    return mine;
}

/* As much at once as the stack has room for, and nothing at all once: then messages have heads alone. The result is in to, of
   the root alone. */
RVMC_INLINE void reduce(struct group *g, const struct folding *f, const char *from, char *to, long count, int root)
{
    BUFFER(mine);
    BUFFER(others);
    int top = commutes(f->op) ? root : 0;

    for (long at = 0; (at < count || !at) && !g->code; at += FOLDED / f->size) {
        long n = least(count - at, FOLDED / f->size);
        char *result;

        memcpy(mine, from + at * f->size, n * f->size);
        result = climb(g, f, mine, others, n, top);
        if (top != root && g->me == top)
            give(g, result, n, f->type, root);
        if (top != root && g->me == root)
            take(g, result, n, f->type, top);
        if (g->me == root && !g->code)
            memcpy(to + at * f->size, result, n * f->size);
    }
}

int MPI_Reduce(const void *from, void *to, int count, MPI_Datatype type, MPI_Op op, int root, MPI_Comm c, rvmc_fold *fold)
{
    RVMC_IF_DERIVED(type, type, rvmc_derived_Reduce(from, to, count, type, op, root, c));

    struct group g = rvmc_rooted(rvmc_name_Reduce, c, root);
    const void *mine = from == MPI_IN_PLACE ? to : from;
    struct folding f = folding(&g, mine, count, type, op, fold);

    if (g.me == root)
        wanted(&g, from, to, count);
    else if (from == MPI_IN_PLACE)
        fault(&g, RVMC_IN_PLACE, "sendbuf", (long)from, 0);
    reduce(&g, &f, mine, to, count, root);
    return finish(&g);
}

/* A binomial tree: who stands at place v takes from v without its lowest bit. */
RVMC_INLINE void spread(struct group *g, const struct folding *f, char *buffer, long count)
{
    int bit = 1;

    while (bit < g->size && !(g->me & bit))
        bit *= 2;
    if (g->me)
        take(g, buffer, count, f->type, g->me - bit);
    for (bit /= 2; bit; bit /= 2)
        if (g->me + bit < g->size)
            give(g, buffer, count, f->type, g->me + bit);
}

int MPI_Allreduce(const void *from, void *to, int count, MPI_Datatype type, MPI_Op op, MPI_Comm c, rvmc_fold *fold)
{
    RVMC_IF_DERIVED(type, type, rvmc_derived_Allreduce(from, to, count, type, op, c));

    struct group g = rvmc_group(rvmc_name_Allreduce, c);
    const void *mine = from == MPI_IN_PLACE ? to : from;
    struct folding f = folding(&g, mine, count, type, op, fold);

    wanted(&g, from, to, count);
    reduce(&g, &f, mine, to, count, 0);
    spread(&g, &f, to, count);
    return finish(&g);
}

/* The part of each rank goes up a tree of its own. In place, a rank's result lies before what is still to be folded. */
RVMC_INLINE void reduce_parts(struct group *g, const struct folding *f, const char *from, char *to, const int *counts,
                              int count)
{
    for (int r = 0; r < g->size && !g->code; r++) {
        int n = counts ? counts[r] : count;

        reduce(g, f, from, to, n, r);
        from += n * f->size;
    }
}

int MPI_Reduce_scatter(const void *from, void *to, const int counts[], MPI_Datatype type, MPI_Op op, MPI_Comm c,
                       rvmc_fold *fold)
{
    RVMC_IF_DERIVED(type, type, rvmc_derived_Reduce_scatter(from, to, counts, type, op, c));

    struct group g = rvmc_group(rvmc_name_Reduce_scatter, c);
    const void *mine = from == MPI_IN_PLACE ? to : from;
    int all = 0;
    struct folding f;

    if (!counts)
        fault(&g, RVMC_BAD_BUFFER, "recvcounts", 0, 0);
    for (int r = 0; r < g.size && !g.code; r++) {
        if (counts[r] < 0)
            fault(&g, RVMC_BAD_COUNT, "recvcounts", counts[r], 0);
        all += counts[r];
    }
    f = folding(&g, mine, all, type, op, fold);
    if (!g.code)
        wanted(&g, from, to, counts[g.me]);
    reduce_parts(&g, &f, mine, to, counts, 0);
    return finish(&g);
}

int MPI_Reduce_scatter_block(const void *from, void *to, int count, MPI_Datatype type, MPI_Op op, MPI_Comm c,
                             rvmc_fold *fold)
{
    RVMC_IF_DERIVED(type, type, rvmc_derived_Reduce_scatter_block(from, to, count, type, op, c));

    struct group g = rvmc_group(rvmc_name_Reduce_scatter_block, c);
    const void *mine = from == MPI_IN_PLACE ? to : from;
    struct folding f = folding(&g, mine, count, type, op, fold);

    wanted(&g, from, to, count);
    reduce_parts(&g, &f, mine, to, 0, count);
    return finish(&g);
}

int MPI_Reduce_local(const void *from, void *to, int count, MPI_Datatype type, MPI_Op op, rvmc_fold *fold_of_type)
{
    RVMC_IF_DERIVED(type, type, rvmc_derived_Reduce_local(from, to, count, type, op));

    struct group g = {.call = "MPI_Reduce_local", .communicator = MPI_COMM_WORLD, .size = 1,
                      .code = rvmc_idle() ? RVMC_NOT_BEGUN : RVMC_OK};
    struct folding f = folding(&g, from, count, type, op, fold_of_type);

    wanted(&g, from, to, count);
    if (count > 0)
        fold(&g, &f, to, (void *)from, count);
    return finish(&g);
}

/* From rank to rank. What a rank hands on is everything up to itself; exclusive, its own isn't in its result (6.11). */
RVMC_INLINE void scan(struct group *g, const struct folding *f, const char *from, char *to, long count, int exclusive)
{
    BUFFER(mine);
    BUFFER(before);
    BUFFER(lower);

    for (long at = 0; (at < count || !at) && !g->code; at += FOLDED / f->size) {
        long n = least(count - at, FOLDED / f->size), size = n * f->size;

        memcpy(mine, from + at * f->size, size);
        if (g->me > 0) {
            take(g, before, n, f->type, g->me - 1);
            if (exclusive)
                memcpy(lower, before, size);
            fold(g, f, mine, before, n);
            if (exclusive && !g->code)
                memcpy(to + at * f->size, lower, size);
        }
        if (!exclusive && !g->code)
            memcpy(to + at * f->size, mine, size);
        if (g->me + 1 < g->size)
            give(g, mine, n, f->type, g->me + 1);
    }
}

int MPI_Scan(const void *from, void *to, int count, MPI_Datatype type, MPI_Op op, MPI_Comm c, rvmc_fold *fold)
{
    RVMC_IF_DERIVED(type, type, rvmc_derived_Scan(from, to, count, type, op, c));

    struct group g = rvmc_group(rvmc_name_Scan, c);
    const void *mine = from == MPI_IN_PLACE ? to : from;
    struct folding f = folding(&g, mine, count, type, op, fold);

    wanted(&g, from, to, count);
    scan(&g, &f, mine, to, count, 0);
    return finish(&g);
}

/* Of rank 0 nothing comes to its buffer. */
int MPI_Exscan(const void *from, void *to, int count, MPI_Datatype type, MPI_Op op, MPI_Comm c, rvmc_fold *fold)
{
    RVMC_IF_DERIVED(type, type, rvmc_derived_Exscan(from, to, count, type, op, c));

    struct group g = rvmc_group(rvmc_name_Exscan, c);
    const void *mine = from == MPI_IN_PLACE ? to : from;
    struct folding f = folding(&g, mine, count, type, op, fold);

    if (g.me > 0)
        wanted(&g, from, to, count);
    scan(&g, &f, mine, to, count, 1);
    return finish(&g);
}
