/* collectives.c: MPI 4.1, chapter 6, over messages between two ranks (group.h); lib/reductions.c has the reductions. */
#include <string.h>
#include "../mpi.h"
#include "derived_calls.h"
#include "group.h"

#ifndef RVMC_OF_DERIVED
struct group rvmc_group_at(const char *call, MPI_Comm c, const void *place)
{
    struct group g = {.call = call, .place = place, .communicator = c, .of = rvmc_known(c), .tag = RVMC_TAG_COLLECTIVE + c,
                      .size = 1, .root = -1, .uncounted = 1, .count = -1};

    if (rvmc_idle()) {
        g.code = RVMC_NOT_BEGUN;
    } else if (g.of) {
        g.me = g.of->me;
        g.size = g.of->size;
    } else {
        g.code = RVMC_BAD_COMM;
    }
    return g;
}

struct group rvmc_rooted_at(const char *call, MPI_Comm c, int root, const void *place)
{
    struct group g = rvmc_group_at(call, c, place);

    g.root = root;
    if (root < 0 || root >= g.size)
        fault(&g, RVMC_BAD_ROOT, "root", root, 0);
    return g;
}

/* In step k each rank tells the one 2^k behind it, and hears from the one 2^k before it. */
int MPI_Barrier(MPI_Comm c)
{
    struct group g = rvmc_group("MPI_Barrier", c);

    for (int step = 1; step < g.size && !g.code; step *= 2) {
        give_word(&g, (g.me + step) % g.size);
        take_word(&g, (g.me - step + g.size) % g.size);
    }
    return finish(&g);
}
#endif

/* The parts of a buffer, one for each rank. Without counts all have the same, without places they stand one behind the
   other. Each may have a datatype of its own; then places are in bytes (6.8). */
struct parts {
    const char *buffer;
    int count;
    MPI_Datatype type;
    const int *counts, *places;
    const MPI_Datatype *types;
    const char *names[4];                         /* the buffer's, the count's, the datatype's and that of several counts */
};

RVMC_INLINE MPI_Datatype type_of(const struct parts *p, int rank)
{
    return p->types ? p->types[rank] : p->type;
}

RVMC_INLINE long count_of(const struct parts *p, int rank)
{
    return p->counts ? p->counts[rank] : p->count;
}

RVMC_INLINE char *place_of(const struct parts *p, int rank)
{
    long place = p->places ? p->places[rank] : (long)p->count * rank;

    return (char *)p->buffer + (p->types ? place : place * extent_of(p->type));
}

RVMC_INLINE void give_part(struct group *g, const struct parts *p, int part, int to)
{
    give(g, place_of(p, part), count_of(p, part), type_of(p, part), to);
}

RVMC_INLINE void take_part(struct group *g, const struct parts *p, int part, int from)
{
    take(g, place_of(p, part), count_of(p, part), type_of(p, part), from);
}

/* One part: a datatype, a count, and memory where there are bytes. */
static void check(struct group *g, const struct parts *p, int rank)
{
    int count = p->counts ? p->counts[rank] : p->count;

    if (g->code)
        return;
    if (!is_type(type_of(p, rank)))
        fault(g, RVMC_BAD_TYPE, p->names[2], type_of(p, rank), 0);
    else if (count < 0)
        fault(g, RVMC_BAD_COUNT, p->names[p->counts ? 3 : 1], count, 0);
    else if (count && (p->buffer == MPI_IN_PLACE || (!p->buffer && RVMC_SIZE_OF(type_of(p, rank)))))
        fault(g, RVMC_BAD_BUFFER, p->names[0], (long)p->buffer, 0);
}

static void check_all(struct group *g, const struct parts *p)
{
    for (int r = 0; r < g->size; r++)
        check(g, p, r);
}

/* A rank's own part. Buffers that begin at the same place are MPI_IN_PLACE's business. */
static void copy(struct group *g, const struct parts *in, int to_part, const struct parts *out, int part)
{
    long count = count_of(out, part), room = count_of(in, to_part), size, of_room;
    MPI_Datatype type = type_of(out, part), to_type = type_of(in, to_part);
    char *from = place_of(out, part), *to = place_of(in, to_part);

    if (g->code)
        return;
    size = bytes_of(count, type);
    of_room = bytes_of(room, to_type);
    if (size != of_room)
        fault(g, RVMC_OTHER_COUNT, 0, g->me, of_room);
    else if (size && to == from)
        fault(g, RVMC_ALIASED, "recvbuf", (long)to, 0);
    else if (size)
        rvmc_copy(g, to, room, to_type, from, count, type);
}

static struct parts out_parts(const void *buffer, int count, MPI_Datatype type)
{
    return (struct parts){buffer, count, type, 0, 0, 0, {"sendbuf", "sendcount", "sendtype", "sendcounts"}};
}

static struct parts in_parts(void *buffer, int count, MPI_Datatype type)
{
    return (struct parts){buffer, count, type, 0, 0, 0, {"recvbuf", "recvcount", "recvtype", "recvcounts"}};
}

/* A binomial tree: who stands at place v takes from v without its lowest bit. */
RVMC_INLINE void spread(struct group *g, const struct parts *p, int part, int root)
{
    int place = (g->me - root + g->size) % g->size, bit = 1;

    while (bit < g->size && !(place & bit))
        bit *= 2;
    if (place)
        take_part(g, p, part, (place - bit + root) % g->size);
    for (bit /= 2; bit; bit /= 2)
        if (place + bit < g->size)
            give_part(g, p, part, (place + bit + root) % g->size);
}

int MPI_Bcast(void *buffer, int count, MPI_Datatype type, int root, MPI_Comm c)
{
    RVMC_IF_DERIVED(type, type, rvmc_derived_Bcast(buffer, count, type, root, c));

    struct group g = rvmc_rooted(rvmc_name_Bcast, c, root);
    struct parts p = {buffer, count, type, 0, 0, 0, {"buffer", "count", "datatype", 0}};

    check(&g, &p, 0);
    spread(&g, &p, 0, root);
    return finish(&g);
}

RVMC_INLINE void gather(struct group *g, const struct parts *out, const struct parts *in, int root)
{
    if (g->me != root) {
        check(g, out, 0);
        give_part(g, out, 0, root);
        return;
    }
    check_all(g, in);
    if (out->buffer != MPI_IN_PLACE)
        check(g, out, 0);
    for (int r = 0; r < g->size && !g->code; r++)
        if (r != g->me)
            take_part(g, in, r, r);
        else if (out->buffer != MPI_IN_PLACE)
            copy(g, in, r, out, 0);
}

int MPI_Gather(const void *out, int out_count, MPI_Datatype out_type, void *in, int in_count, MPI_Datatype in_type, int root,
               MPI_Comm c)
{
    RVMC_IF_DERIVED(out_type, in_type, rvmc_derived_Gather(out, out_count, out_type, in, in_count, in_type, root, c));

    struct group g = rvmc_rooted(rvmc_name_Gather, c, root);
    struct parts from = out_parts(out, out_count, out_type), to = in_parts(in, in_count, in_type);

    gather(&g, &from, &to, root);
    return finish(&g);
}

int MPI_Gatherv(const void *out, int out_count, MPI_Datatype out_type, void *in, const int in_counts[], const int places[],
                MPI_Datatype in_type, int root, MPI_Comm c)
{
    RVMC_IF_DERIVED(out_type, in_type, rvmc_derived_Gatherv(out, out_count, out_type, in, in_counts, places, in_type, root, c));

    struct group g = rvmc_rooted(rvmc_name_Gatherv, c, root);
    struct parts from = out_parts(out, out_count, out_type), to = in_parts(in, 0, in_type);

    to.counts = in_counts;
    to.places = places;
    gather(&g, &from, &to, root);
    return finish(&g);
}

RVMC_INLINE void scatter(struct group *g, const struct parts *out, const struct parts *in, int root)
{
    if (g->me != root) {
        check(g, in, 0);
        take_part(g, in, 0, root);
        return;
    }
    check_all(g, out);
    if (in->buffer != MPI_IN_PLACE)
        check(g, in, 0);
    for (int r = 0; r < g->size && !g->code; r++)
        if (r != g->me)
            give_part(g, out, r, r);
        else if (in->buffer != MPI_IN_PLACE)
            copy(g, in, 0, out, r);
}

int MPI_Scatter(const void *out, int out_count, MPI_Datatype out_type, void *in, int in_count, MPI_Datatype in_type,
                int root, MPI_Comm c)
{
    RVMC_IF_DERIVED(out_type, in_type, rvmc_derived_Scatter(out, out_count, out_type, in, in_count, in_type, root, c));

    struct group g = rvmc_rooted(rvmc_name_Scatter, c, root);
    struct parts from = out_parts(out, out_count, out_type), to = in_parts(in, in_count, in_type);

    scatter(&g, &from, &to, root);
    return finish(&g);
}

int MPI_Scatterv(const void *out, const int out_counts[], const int places[], MPI_Datatype out_type, void *in, int in_count,
                 MPI_Datatype in_type, int root, MPI_Comm c)
{
    RVMC_IF_DERIVED(out_type, in_type, rvmc_derived_Scatterv(out, out_counts, places, out_type, in, in_count, in_type, root, c));

    struct group g = rvmc_rooted(rvmc_name_Scatterv, c, root);
    struct parts from = out_parts(out, 0, out_type), to = in_parts(in, in_count, in_type);

    from.counts = out_counts;
    from.places = places;
    scatter(&g, &from, &to, root);
    return finish(&g);
}

/* Each part is spread by its rank: so parts of any places and lengths go the same way. */
RVMC_INLINE void gather_all(struct group *g, const struct parts *out, const struct parts *in)
{
    check_all(g, in);
    if (out->buffer != MPI_IN_PLACE) {
        check(g, out, 0);
        if (!g->code)
            copy(g, in, g->me, out, 0);
    }
    for (int r = 0; r < g->size && !g->code; r++)
        spread(g, in, r, r);
}

int MPI_Allgather(const void *out, int out_count, MPI_Datatype out_type, void *in, int in_count, MPI_Datatype in_type,
                  MPI_Comm c)
{
    RVMC_IF_DERIVED(out_type, in_type, rvmc_derived_Allgather(out, out_count, out_type, in, in_count, in_type, c));

    struct group g = rvmc_group(rvmc_name_Allgather, c);
    struct parts from = out_parts(out, out_count, out_type), to = in_parts(in, in_count, in_type);

    gather_all(&g, &from, &to);
    return finish(&g);
}

int MPI_Allgatherv(const void *out, int out_count, MPI_Datatype out_type, void *in, const int in_counts[],
                   const int places[], MPI_Datatype in_type, MPI_Comm c)
{
    RVMC_IF_DERIVED(out_type, in_type, rvmc_derived_Allgatherv(out, out_count, out_type, in, in_counts, places, in_type, c));

    struct group g = rvmc_group(rvmc_name_Allgatherv, c);
    struct parts from = out_parts(out, out_count, out_type), to = in_parts(in, 0, in_type);

    to.counts = in_counts;
    to.places = places;
    gather_all(&g, &from, &to);
    return finish(&g);
}

/* Each rank begins with the one behind it. In place all is sent before the first part is overwritten: no send waits. */
RVMC_INLINE void exchange(struct group *g, const struct parts *out, const struct parts *in)
{
    int in_place = out->buffer == MPI_IN_PLACE;
    const struct parts *from = in_place ? in : out;

    check_all(g, in);
    check_all(g, from);
    if (!g->code && !in_place)
        copy(g, in, g->me, out, g->me);
    for (int d = 1; d < g->size && !g->code; d++) {
        int to = (g->me + d) % g->size, source = (g->me - d + g->size) % g->size;

        give_part(g, from, to, to);
        if (!in_place)
            take_part(g, in, source, source);
    }
    for (int d = 1; in_place && d < g->size && !g->code; d++) {
        int source = (g->me - d + g->size) % g->size;

        take_part(g, in, source, source);
    }
}

int MPI_Alltoall(const void *out, int out_count, MPI_Datatype out_type, void *in, int in_count, MPI_Datatype in_type,
                 MPI_Comm c)
{
    RVMC_IF_DERIVED(out_type, in_type, rvmc_derived_Alltoall(out, out_count, out_type, in, in_count, in_type, c));

    struct group g = rvmc_group(rvmc_name_Alltoall, c);
    struct parts from = out_parts(out, out_count, out_type), to = in_parts(in, in_count, in_type);

    exchange(&g, &from, &to);
    return finish(&g);
}

int MPI_Alltoallv(const void *out, const int out_counts[], const int out_places[], MPI_Datatype out_type, void *in,
                  const int in_counts[], const int in_places[], MPI_Datatype in_type, MPI_Comm c)
{
    RVMC_IF_DERIVED(out_type, in_type, rvmc_derived_Alltoallv(out, out_counts, out_places, out_type, in, in_counts, in_places, in_type, c));

    struct group g = rvmc_group(rvmc_name_Alltoallv, c);
    struct parts from = out_parts(out, 0, out_type), to = in_parts(in, 0, in_type);

    from.counts = out_counts;
    from.places = out_places;
    to.counts = in_counts;
    to.places = in_places;
    exchange(&g, &from, &to);
    return finish(&g);
}

int MPI_Alltoallw(const void *out, const int out_counts[], const int out_places[], const MPI_Datatype out_types[], void *in,
                  const int in_counts[], const int in_places[], const MPI_Datatype in_types[], MPI_Comm c)
{
    struct group g = rvmc_group(rvmc_name_Alltoallw, c);
    struct parts from = out_parts(out, 0, 0), to = in_parts(in, 0, 0);

    from.counts = out_counts;
    from.places = out_places;
    from.types = out_types;
    to.counts = in_counts;
    to.places = in_places;
    to.types = in_types;
    exchange(&g, &from, &to);
    /* what was refused as no datatype before anything was sent may be one that the program made */
    if (g.code == RVMC_BAD_TYPE)
        RVMC_IF_DERIVED((MPI_Datatype)g.value, (MPI_Datatype)g.value,
                        rvmc_derived_Alltoallw(out, out_counts, out_places, out_types, in, in_counts, in_places, in_types, c));
    return finish(&g);
}
