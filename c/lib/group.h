/* group.h: what the collectives share: who takes part, and giving and taking pieces of a buffer. Messages go in the twin, by
   one tag for all collectives of a communicator that wait, so a receive of any source and any tag in the program's own
   communicators never takes one of them. A buffer goes in pieces of 4,096 bytes. All members call the same collectives in
   the same order (6.12), and nothing overtakes (3.5), so one tag is enough; and the first message to a rank in each call has
   a head, which says whether they do (mismatch.h).
   Pieces are given and taken inline: the place of a hart that waits is in the collective that it called. */
#ifndef RVMC_GROUP_H
#define RVMC_GROUP_H

#include <string.h>
#include "mismatch.h"
#include "system.h"

/* Who takes part, in what call; and what is wrong, with the argument's name, its value and what was expected. Behind the first
   fault nothing more is sent or received. */
struct group {
    const char *call;
    const void *place;                            /* behind the call, in the program */
    MPI_Comm communicator;
    const struct rvmc_communicator *of;
    int tag, me, size;
    long code;
    const char *argument;
    long value, expected;
    int root;                                     /* -1: the call has none */
    MPI_Op op;
    int uncounted;                                /* the call belongs to the order, and isn't counted yet */
    struct rvmc_point point;                      /* where in the order it stands, once it is counted */
    unsigned given, taken;                        /* bit r: the rank at place r has had a message of the call, or sent one */
    int whole;                                    /* the signature is that of the call, and not of each message */
    long count;
    MPI_Datatype type;
    unsigned signature;                           /* of so many elements of this datatype */
    struct rvmc_head mine;
};

/* The names of calls that are compiled twice, each at one address, by which it's known (orders.h). */
#define RVMC_NAMES(name) \
    name(Bcast) name(Gather) name(Gatherv) name(Scatter) name(Scatterv) name(Allgather) name(Allgatherv) name(Alltoall) \
    name(Alltoallv) name(Alltoallw) name(Reduce) name(Allreduce) name(Reduce_scatter) name(Reduce_scatter_block) name(Scan) \
    name(Exscan) name(Neighbor_allgather) name(Neighbor_allgatherv) name(Neighbor_alltoall) name(Neighbor_alltoallv) \
    name(Neighbor_alltoallw)
#define RVMC_NAME(name) extern const char rvmc_name_##name[];
RVMC_NAMES(RVMC_NAME)
#undef RVMC_NAME

int rvmc_wrong_collective(const struct group *g);
int rvmc_wrong_mismatch(const struct group *g);
struct group rvmc_group_at(const char *call, MPI_Comm c, const void *place);
struct group rvmc_rooted_at(const char *call, MPI_Comm c, int root, const void *place);
#define rvmc_group(call, c) rvmc_group_at(call, c, __builtin_return_address(0))
#define rvmc_rooted(call, c, root) rvmc_rooted_at(call, c, root, __builtin_return_address(0))

/* The call isn't of all ranks of the communicator, or of no other rank. */
RVMC_INLINE void out_of_count(struct group *g)
{
    g->uncounted = 0;
}

/* All messages of the call carry the signature of so many elements, of which each message has a part. */
void rvmc_whole(struct group *g, long count, MPI_Datatype type);

const char *rvmc_headed(struct group *g, const void *buffer, long count, MPI_Datatype type, long size);
void rvmc_hears(struct group *g, const void *buffer, long size);
void rvmc_heard(struct group *g, void *buffer, long count, MPI_Datatype type, long size, int from, long bytes);

RVMC_INLINE int finish(struct group *g)
{
    if (__builtin_expect(g->code != RVMC_OK, 0))
        return rvmc_trapped(rvmc_wrong_collective(g));
    if (g->uncounted)
        rvmc_count(g);
    return MPI_SUCCESS;
}

RVMC_INLINE void fault(struct group *g, long code, const char *argument, long value, long expected)
{
    if (g->code)
        return;
    g->code = code;
    g->argument = argument;
    g->value = value;
    g->expected = expected;
}

/* Whether a handle is a datatype, the bytes from one of it to the next, and those of so many in a message. Collectives are
   compiled twice: for basic datatypes, and for those that a program makes too (lib/derived_collectives.c). */
#ifdef RVMC_OF_DERIVED
RVMC_INLINE int is_type(MPI_Datatype type)
{
    return RVMC_SIZE_OF(type) || (rvmc_is_derived(type) && rvmc_derived.usable(type));
}

RVMC_INLINE long extent_of(MPI_Datatype type)
{
    return rvmc_is_derived(type) ? rvmc_derived.extent(type) : RVMC_SIZE_OF(type);
}

RVMC_INLINE long bytes_of(long count, MPI_Datatype type)
{
    return count * (rvmc_is_derived(type) ? rvmc_derived.bytes(type) : RVMC_SIZE_OF(type));
}
#define RVMC_IF_DERIVED(type, other, call) (void)0
#else
RVMC_INLINE int is_type(MPI_Datatype type)
{
    return RVMC_SIZE_OF(type) != 0;
}

RVMC_INLINE long extent_of(MPI_Datatype type)
{
    return RVMC_SIZE_OF(type);
}

RVMC_INLINE long bytes_of(long count, MPI_Datatype type)
{
    return count * RVMC_SIZE_OF(type);
}
#define RVMC_IF_DERIVED(type, other, call) \
    do \
        if (rvmc_is_derived(type) || rvmc_is_derived(other)) \
            return call; \
    while (0)
#endif

/* Where a message with a head is put together: so that its data stand as the buffer does, and are copied by words. */
RVMC_INLINE char *head_room(const void *buffer)
{
    return rvmc_pages[rvmc_hart].first + ((long)buffer & 4);
}

RVMC_INLINE long headed(long size)
{
    return size < RVMC_HEADED ? size : RVMC_HEADED;
}

/* Bytes for the rank at a place of the communicator: so many elements of a datatype, as they stand in a message. */
RVMC_INLINE void give_bytes(struct group *g, const void *buffer, long size, long count, MPI_Datatype type, int to)
{
    long at = 0;

    if (!g->code && !(g->given >> to & 1)) {
        const char *message = rvmc_headed(g, buffer, count, type, size);

        g->given |= 1u << to;
        if (!g->code)
            g->code = rvmc_call(RVMC_SEND, (long)message, RVMC_HEAD + headed(size), rvmc_rank_at(g->of, to), g->tag, RVMC_TWIN,
                                RVMC_IS_BUFFERED).code;
        at = RVMC_HEADED;
    }
    for (; at < size && !g->code; at += RVMC_PIECE) {
        long code = rvmc_call(RVMC_SEND, (long)buffer + at, rvmc_first(size - at), rvmc_rank_at(g->of, to), g->tag, RVMC_TWIN,
                              RVMC_IS_BUFFERED).code;

        if (code)
            fault(g, code, "sendbuf", (long)buffer, size);
    }
}

RVMC_INLINE void take_bytes(struct group *g, void *buffer, long size, long count, MPI_Datatype type, int from)
{
    long at = 0;
    MPI_Status status;

    if (g->uncounted && !g->code)
        rvmc_hears(g, buffer, size);
    if (!g->code && !(g->taken >> from & 1)) {
        g->code = rvmc_call(RVMC_RECV, (long)head_room(buffer), RVMC_PIECE, rvmc_rank_at(g->of, from), g->tag, RVMC_TWIN,
                            (long)&status).code;
        g->taken |= 1u << from;
        if (!g->code)
            rvmc_heard(g, buffer, count, type, size, from, status.rvmc_bytes);
        at = RVMC_HEADED;
    }
    for (; at < size && !g->code; at += RVMC_PIECE) {
        long code = rvmc_call(RVMC_RECV, (long)buffer + at, rvmc_first(size - at), rvmc_rank_at(g->of, from), g->tag, RVMC_TWIN,
                              (long)&status).code;

        if (code == RVMC_TRUNCATED || (!code && status.rvmc_bytes != rvmc_first(size - at)))
            fault(g, RVMC_OTHER_COUNT, 0, from, size);
        else if (code)
            fault(g, code, "recvbuf", (long)buffer, size);
    }
}

/* So many elements of a datatype. */
#ifdef RVMC_OF_DERIVED
void rvmc_give(struct group *g, const void *buffer, long count, MPI_Datatype type, int to);
void rvmc_take(struct group *g, void *buffer, long count, MPI_Datatype type, int from);
void rvmc_copy(struct group *g, void *to, long to_count, MPI_Datatype to_type, const void *from, long count, MPI_Datatype type);
#define give rvmc_give
#define take rvmc_take
#else
RVMC_INLINE void give(struct group *g, const void *buffer, long count, MPI_Datatype type, int to)
{
    give_bytes(g, buffer, count * RVMC_SIZE_OF(type), count, type, to);
}

RVMC_INLINE void take(struct group *g, void *buffer, long count, MPI_Datatype type, int from)
{
    take_bytes(g, buffer, count * RVMC_SIZE_OF(type), count, type, from);
}

RVMC_INLINE void rvmc_copy(struct group *g, void *to, long to_count, MPI_Datatype to_type, const void *from, long count,
                           MPI_Datatype type)
{
    (void)g;
    (void)to_count;
    (void)to_type;
    memcpy(to, from, count * RVMC_SIZE_OF(type));
}
#endif

/* A message without bytes but its head, that only says something by being there. */
RVMC_INLINE void give_word(struct group *g, int to)
{
    give(g, 0, 0, MPI_BYTE, to);
}

RVMC_INLINE void take_word(struct group *g, int from)
{
    take(g, 0, 0, MPI_BYTE, from);
}

#endif
