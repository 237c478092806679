/* derived_reductions.c: reductions of data of a datatype that a program made, by its own function, in the order of the
   ranks. Their data go straight to the ranks that fold them. */
#include <stdlib.h>
#ifndef __clang__
#pragma GCC optimize("Os")
#endif
#define RVMC_OF_DERIVED
#define RVMC_REDUCTIONS
#include "derived_calls.h"
#include "../mpi.h"
#include "errors.h"
#include "folding.h"
#include "group.h"
#include "layouts.h"

/* A function of the program may copy whole elements, with the bytes between the data and the bounds. */
struct rvmc_values rvmc_new_values(long count, MPI_Datatype type)
{
    struct rvmc_layout one = rvmc_measures(type);
    long low = one.true_low < one.low ? one.true_low : one.low, high = one.true_high > one.high ? one.true_high : one.high;
    long all = count > 0 ? (count - 1) * (one.high - one.low) : 0;
    struct rvmc_values v = {malloc(high - low + (all < 0 ? -all : all) + 1), 0};

    v.base = v.memory - low - (all < 0 ? all : 0);
    return v;
}

/* What is folded: the data of this rank, and what came of the ranks before. */
struct folding {
    struct group *g;
    MPI_User_function *function;
    MPI_Datatype type;
    struct rvmc_values all, next;
};

/* Begins: g is the call's, and all the count of what a rank gives. */
static int begin(struct folding *f, struct group *g, long all, MPI_Datatype type, MPI_Op op)
{
    *f = (struct folding){g, rvmc_own_op(op), type, {0, 0}, {0, 0}};
    if (all < 0)
        fault(g, RVMC_BAD_COUNT, "count", all, 0);
    if (!is_type(type))
        fault(g, RVMC_BAD_TYPE, "datatype", type, 0);
    if (g->code)
        return finish(g);
    if (!f->function)
        return rvmc_trapped(rvmc_raise(g->call, g->communicator, MPI_ERR_OP, "op", "%s isn't an operation of a derived datatype",
                                       rvmc_op_name(op)));
    g->op = op;
    rvmc_whole(g, all, type);
    f->all = rvmc_new_values(all, type);
    f->next = rvmc_new_values(all, type);
    if (!f->all.memory || !f->next.memory)
        fault(g, RVMC_NO_MEMORY, 0, 0, 0);
    return MPI_SUCCESS;
}

static int end(struct folding *f)
{
    free(f->all.memory);
    free(f->next.memory);
    return finish(f->g);
}

/* The data of the ranks from 0 up to one, in their order: the result is in f->all. */
static void fold_up_to(struct folding *f, const void *mine, long count, int last)
{
    for (int r = 0; r <= last && !f->g->code; r++) {
        struct rvmc_values before = f->all;
        char *to = r ? f->next.base : before.base;
        int length = (int)count;

        if (r == f->g->me)
            rvmc_copy(f->g, to, count, f->type, mine, count, f->type);
        else
            take(f->g, to, count, f->type, r);
        if (!r || f->g->code || !count)
            continue;
        f->function(before.base, to, &length, &f->type);
        f->all = f->next;
        f->next = before;
    }
}

static void result(struct folding *f, void *to, long count)
{
    if (!f->g->code)
        rvmc_copy(f->g, to, count, f->type, f->all.base, count, f->type);
}

static void reduce(struct folding *f, const void *mine, void *to, long count, int root)
{
    if (f->g->me != root) {
        give(f->g, mine, count, f->type, root);
        return;
    }
    fold_up_to(f, mine, count, f->g->size - 1);
    result(f, to, count);
}

int rvmc_derived_Reduce(const void *from, void *to, int count, MPI_Datatype type, MPI_Op op, int root, MPI_Comm c)
{
    struct group g = rvmc_rooted(rvmc_name_Reduce, c, root);
    struct folding f;
    int error = begin(&f, &g, count, type, op);

    if (error)
        return error;
    reduce(&f, from == MPI_IN_PLACE ? to : from, to, count, root);
    return end(&f);
}

int rvmc_derived_Allreduce(const void *from, void *to, int count, MPI_Datatype type, MPI_Op op, MPI_Comm c)
{
    struct group g = rvmc_group(rvmc_name_Allreduce, c);
    struct folding f;
    int error = begin(&f, &g, count, type, op);

    if (error)
        return error;
    reduce(&f, from == MPI_IN_PLACE ? to : from, to, count, 0);
    for (int r = 1; r < g.size && g.me == 0; r++)
        give(&g, to, count, type, r);
    if (g.me)
        take(&g, to, count, type, 0);
    return end(&f);
}

/* Each rank gets its part of all. */
static int reduce_parts(struct group *g, const void *from, char *to, const int *counts, int count, MPI_Datatype type, MPI_Op op)
{
    const char *mine = from == MPI_IN_PLACE ? to : from, *own = mine;
    long all = 0;
    struct folding f;
    int error;

    for (int r = 0; r < g->size && !g->code; r++) {
        int n = counts ? counts[r] : count;

        if (n < 0)
            fault(g, RVMC_BAD_COUNT, counts ? "recvcounts" : "recvcount", n, 0);
        all += n;
    }
    error = begin(&f, g, all, type, op);
    if (error)
        return error;
    for (int r = 0; r < g->size && !g->code; r++) {
        int n = counts ? counts[r] : count;

        if (r == g->me)
            own = mine;
        else
            give(g, mine, n, type, r);
        mine += n * extent_of(type);
    }
    count = counts ? counts[g->me] : count;
    fold_up_to(&f, own, count, g->size - 1);
    result(&f, to, count);
    return end(&f);
}

int rvmc_derived_Reduce_scatter(const void *from, void *to, const int counts[], MPI_Datatype type, MPI_Op op, MPI_Comm c)
{
    struct group g = rvmc_group(rvmc_name_Reduce_scatter, c);

    return reduce_parts(&g, from, to, counts, 0, type, op);
}

int rvmc_derived_Reduce_scatter_block(const void *from, void *to, int count, MPI_Datatype type, MPI_Op op, MPI_Comm c)
{
    struct group g = rvmc_group(rvmc_name_Reduce_scatter_block, c);

    return reduce_parts(&g, from, to, 0, count, type, op);
}

static int scan(struct group *g, const void *from, void *to, int count, MPI_Datatype type, MPI_Op op, int exclusive)
{
    const void *mine = from == MPI_IN_PLACE ? to : from;
    struct folding f;
    int error = begin(&f, g, count, type, op);

    if (error)
        return error;
    for (int r = g->me + 1; r < g->size; r++)
        give(g, mine, count, type, r);
    fold_up_to(&f, mine, count, g->me - exclusive);
    if (g->me >= exclusive)
        result(&f, to, count);
    return end(&f);
}

int rvmc_derived_Scan(const void *from, void *to, int count, MPI_Datatype type, MPI_Op op, MPI_Comm c)
{
    struct group g = rvmc_group(rvmc_name_Scan, c);

    return scan(&g, from, to, count, type, op, 0);
}

int rvmc_derived_Exscan(const void *from, void *to, int count, MPI_Datatype type, MPI_Op op, MPI_Comm c)
{
    struct group g = rvmc_group(rvmc_name_Exscan, c);

    return scan(&g, from, to, count, type, op, 1);
}

int rvmc_derived_Reduce_local(const void *from, void *to, int count, MPI_Datatype type, MPI_Op op)
{
    struct group g = {.call = "MPI_Reduce_local", .communicator = MPI_COMM_WORLD, .size = 1};
    struct folding f;
    int error = begin(&f, &g, count, type, op), length = count;

    if (error)
        return error;
    if (count && !g.code)
        f.function((void *)from, to, &length, &type);
    return end(&f);
}
