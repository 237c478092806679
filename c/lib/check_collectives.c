/* check_collectives.c: what --check looks at before a collective: the memory that it reads and writes. Where ranks don't
   agree, the library itself says so (mismatch.c). */
#include "checked.h"
#include "communicators.h"
#include "topologies.h"

/* The record of a collective that doesn't wait, or of a persistent one, whose buffers come next. */
static _Thread_local struct rvmc_record *later;

/* A call with its buffers: one for the rank, or a part of one for each rank. */
struct call {
    const char *name;
    unsigned behind;
    MPI_Comm communicator;
};

static struct call begin(const char *name, unsigned behind, MPI_Comm c)
{
    if (later)
        name = later->call;
    rvmc_check_begin(name, behind);
    rvmc_check_communicator(name, behind, c);
    return (struct call){name, behind, c};
}

/* What a persistent collective reads or writes from each start to its completion. */
static void keep(const void *buffer, long count, MPI_Datatype type, int is_written)
{
    struct rvmc_kept *part = rvmc_check_take(sizeof *part);

    if (!part)
        return;
    *part = (struct rvmc_kept){later->parts, (void *)buffer, count, type, is_written};
    later->parts = part;
}

/* Looks at a buffer; that of a collective that doesn't wait is in use from now on. */
static void look(const struct call *call, const void *buffer, long count, MPI_Datatype type, int is_written)
{
    int lasts = later && (later->kind & RVMC_IS_PERSISTENT);

    if (!lasts)
        rvmc_check_buffer(call->name, call->behind, buffer, count, type, is_written);
    if (!later || count <= 0 || !buffer || buffer == MPI_IN_PLACE || !rvmc_type_seen(type).size)
        return;
    if (lasts) {
        keep(buffer, count, type, is_written);
        return;
    }
    rvmc_check_lock();
    rvmc_type_regions(later, buffer, count, type, is_written);
    rvmc_check_unlock();
}

void rvmc_check_later(const char *call, const MPI_Request *request)
{
    rvmc_variable_lost(call, RVMC_BEHIND, request);
    later = rvmc_record_new(call, RVMC_BEHIND, RVMC_IS_ACTIVE);
}

void rvmc_check_lasting(const char *call, const MPI_Request *request)
{
    rvmc_variable_lost(call, RVMC_BEHIND, request);
    later = rvmc_record_new(call, RVMC_BEHIND, RVMC_IS_PERSISTENT);
}

void rvmc_check_later_opened(MPI_Request *request)
{
    struct rvmc_record *record = later;

    later = 0;
    if (record && *request != MPI_REQUEST_NULL)
        rvmc_record_open(record, request, *request);
    else if (record)
        rvmc_record_gone(record);
}

static int rank_in(MPI_Comm c)
{
    int rank = -1;

    rvmc_asked_of(RVMC_RANK, c, &rank);
    return rank;
}

static int size_of(MPI_Comm c)
{
    int size = 0;

    rvmc_asked_of(RVMC_SIZE, c, &size);
    return size;
}

static void sends(const struct call *call, const void *buffer, long count, MPI_Datatype type)
{
    look(call, buffer, count, type, RVMC_IS_READ);
}

static void receives(const struct call *call, const void *buffer, long count, MPI_Datatype type)
{
    look(call, buffer, count, type, RVMC_IS_WRITTEN);
}

/* Parts of a buffer, at places in values. */
static void parts(const struct call *call, const void *buffer, const int *counts, const int *places, MPI_Datatype type,
                  int is_written)
{
    long extent = rvmc_type_seen(type).extent;

    if (!buffer || buffer == MPI_IN_PLACE || !counts || !places)
        return;
    for (int r = size_of(call->communicator); r--; )
        look(call, (const char *)buffer + places[r] * extent, counts[r], type, is_written);
}

/* The same with a datatype for each, at places in bytes. */
static void typed_parts(const struct call *call, const void *buffer, const int *counts, const int *places,
                        const MPI_Datatype *types, int is_written)
{
    if (!buffer || buffer == MPI_IN_PLACE || !counts || !places || !types)
        return;
    for (int r = size_of(call->communicator); r--; )
        look(call, (const char *)buffer + places[r], counts[r], types[r], is_written);
}

void rvmc_check_Barrier(MPI_Comm c)
{
    begin("MPI_Barrier", RVMC_BEHIND, c);
}

void rvmc_check_Bcast(void *buffer, int count, MPI_Datatype type, int root, MPI_Comm c)
{
    struct call call = begin("MPI_Bcast", RVMC_BEHIND, c);

    look(&call, buffer, count, type, rank_in(c) != root);
}

void rvmc_check_Gather(const void *out, int out_count, MPI_Datatype out_type, void *in, int in_count, MPI_Datatype in_type,
                        int root, MPI_Comm c)
{
    struct call call = begin("MPI_Gather", RVMC_BEHIND, c);

    sends(&call, out, out_count, out_type);
    if (rank_in(c) == root)
        receives(&call, in, (long)in_count * size_of(c), in_type);
}

void rvmc_check_Gatherv(const void *out, int out_count, MPI_Datatype out_type, void *in, const int in_counts[],
                         const int places[], MPI_Datatype in_type, int root, MPI_Comm c)
{
    struct call call = begin("MPI_Gatherv", RVMC_BEHIND, c);

    sends(&call, out, out_count, out_type);
    if (rank_in(c) == root)
        parts(&call, in, in_counts, places, in_type, RVMC_IS_WRITTEN);
}

void rvmc_check_Scatter(const void *out, int out_count, MPI_Datatype out_type, void *in, int in_count, MPI_Datatype in_type,
                         int root, MPI_Comm c)
{
    struct call call = begin("MPI_Scatter", RVMC_BEHIND, c);

    receives(&call, in, in_count, in_type);
    if (rank_in(c) == root)
        sends(&call, out, (long)out_count * size_of(c), out_type);
}

void rvmc_check_Scatterv(const void *out, const int out_counts[], const int places[], MPI_Datatype out_type, void *in,
                          int in_count, MPI_Datatype in_type, int root, MPI_Comm c)
{
    struct call call = begin("MPI_Scatterv", RVMC_BEHIND, c);

    receives(&call, in, in_count, in_type);
    if (rank_in(c) == root)
        parts(&call, out, out_counts, places, out_type, RVMC_IS_READ);
}

void rvmc_check_Allgather(const void *out, int out_count, MPI_Datatype out_type, void *in, int in_count, MPI_Datatype in_type,
                           MPI_Comm c)
{
    struct call call = begin("MPI_Allgather", RVMC_BEHIND, c);

    sends(&call, out, out_count, out_type);
    receives(&call, in, (long)in_count * size_of(c), in_type);
}

void rvmc_check_Allgatherv(const void *out, int out_count, MPI_Datatype out_type, void *in, const int in_counts[],
                            const int places[], MPI_Datatype in_type, MPI_Comm c)
{
    struct call call = begin("MPI_Allgatherv", RVMC_BEHIND, c);

    sends(&call, out, out_count, out_type);
    parts(&call, in, in_counts, places, in_type, RVMC_IS_WRITTEN);
}

void rvmc_check_Alltoall(const void *out, int out_count, MPI_Datatype out_type, void *in, int in_count, MPI_Datatype in_type,
                          MPI_Comm c)
{
    struct call call = begin("MPI_Alltoall", RVMC_BEHIND, c);

    sends(&call, out, (long)out_count * size_of(c), out_type);
    receives(&call, in, (long)in_count * size_of(c), in_type);
}

void rvmc_check_Alltoallv(const void *out, const int out_counts[], const int out_places[], MPI_Datatype out_type, void *in,
                           const int in_counts[], const int in_places[], MPI_Datatype in_type, MPI_Comm c)
{
    struct call call = begin("MPI_Alltoallv", RVMC_BEHIND, c);

    parts(&call, out, out_counts, out_places, out_type, RVMC_IS_READ);
    parts(&call, in, in_counts, in_places, in_type, RVMC_IS_WRITTEN);
}

void rvmc_check_Alltoallw(const void *out, const int out_counts[], const int out_places[], const MPI_Datatype out_types[],
                           void *in, const int in_counts[], const int in_places[], const MPI_Datatype in_types[], MPI_Comm c)
{
    struct call call = begin("MPI_Alltoallw", RVMC_BEHIND, c);

    typed_parts(&call, out, out_counts, out_places, out_types, RVMC_IS_READ);
    typed_parts(&call, in, in_counts, in_places, in_types, RVMC_IS_WRITTEN);
}

/* --- reductions (6.9 to 6.11) --- */

void rvmc_check_Reduce(const void *from, void *to, int count, MPI_Datatype type, MPI_Op op, int root, MPI_Comm c)
{
    struct call call = begin("MPI_Reduce", RVMC_BEHIND, c);

    (void)op;
    sends(&call, from, count, type);
    if (rank_in(c) == root)
        receives(&call, to, count, type);
}

void rvmc_check_Allreduce(const void *from, void *to, int count, MPI_Datatype type, MPI_Op op, MPI_Comm c)
{
    struct call call = begin("MPI_Allreduce", RVMC_BEHIND, c);

    (void)op;
    sends(&call, from, count, type);
    receives(&call, to, count, type);
}

void rvmc_check_Scan(const void *from, void *to, int count, MPI_Datatype type, MPI_Op op, MPI_Comm c)
{
    struct call call = begin("MPI_Scan", RVMC_BEHIND, c);

    (void)op;
    sends(&call, from, count, type);
    receives(&call, to, count, type);
}

void rvmc_check_Exscan(const void *from, void *to, int count, MPI_Datatype type, MPI_Op op, MPI_Comm c)
{
    struct call call = begin("MPI_Exscan", RVMC_BEHIND, c);

    (void)op;
    sends(&call, from, count, type);
    if (rank_in(c) > 0)
        receives(&call, to, count, type);
}

void rvmc_check_Reduce_scatter(const void *from, void *to, const int counts[], MPI_Datatype type, MPI_Op op, MPI_Comm c)
{
    struct call call = begin("MPI_Reduce_scatter", RVMC_BEHIND, c);
    long all = 0;

    (void)op;
    for (int r = counts ? size_of(c) : 0; r--; )
        all += counts[r];
    sends(&call, from, all, type);
    if (counts && rank_in(c) >= 0)
        receives(&call, to, from == MPI_IN_PLACE ? all : counts[rank_in(c)], type);
}

void rvmc_check_Reduce_scatter_block(const void *from, void *to, int count, MPI_Datatype type, MPI_Op op, MPI_Comm c)
{
    struct call call = begin("MPI_Reduce_scatter_block", RVMC_BEHIND, c);
    long all = (long)count * size_of(c);

    (void)op;
    sends(&call, from, all, type);
    receives(&call, to, from == MPI_IN_PLACE ? all : count, type);
}

/* --- neighborhood collectives (8.6) --- */

/* A buffer with a part for each neighbor: behind one another, at places in values, or at places in bytes. */
struct side {
    const void *buffer;
    int count;
    MPI_Datatype type;
    const int *counts, *places;
    const MPI_Aint *bytes;
    const MPI_Datatype *types;
};

static struct rvmc_neighbors neighbors_in(MPI_Comm c)
{
    const struct rvmc_topology *t = rvmc_topology_of(c);

    return t ? rvmc_neighbors_of(t, rvmc_known(c)) : (struct rvmc_neighbors){0, 0, 0, 0};
}

/* The parts of those neighbors that are there. */
static void look_at_side(const struct call *call, const struct side *s, int neighbors, const int *ranks, int is_written)
{
    for (int i = 0; i < neighbors && s->buffer; i++) {
        MPI_Datatype type = s->types ? s->types[i] : s->type;
        long count = s->counts ? s->counts[i] : s->count;
        long values = s->places ? s->places[i] : s->counts ? 0 : count * i;
        long place = s->bytes ? s->bytes[i] : values * rvmc_type_seen(type).extent;

        if (ranks[i] != MPI_PROC_NULL)
            look(call, (const char *)s->buffer + place, count, type, is_written);
    }
}

static void look_at_sides(const struct call *call, const struct side *out, const struct side *in)
{
    struct rvmc_neighbors n = neighbors_in(call->communicator);

    look_at_side(call, out, n.out, n.destinations, RVMC_IS_READ);
    look_at_side(call, in, n.in, n.sources, RVMC_IS_WRITTEN);
}

void rvmc_check_Neighbor_allgather(const void *out, int out_count, MPI_Datatype out_type, void *in, int in_count,
                                   MPI_Datatype in_type, MPI_Comm c)
{
    struct call call = begin("MPI_Neighbor_allgather", RVMC_BEHIND, c);
    struct side none = {0, 0, 0, 0, 0, 0, 0}, to = {in, in_count, in_type, 0, 0, 0, 0};

    sends(&call, out, out_count, out_type);
    look_at_sides(&call, &none, &to);
}

void rvmc_check_Neighbor_allgatherv(const void *out, int out_count, MPI_Datatype out_type, void *in, const int in_counts[],
                                    const int places[], MPI_Datatype in_type, MPI_Comm c)
{
    struct call call = begin("MPI_Neighbor_allgatherv", RVMC_BEHIND, c);
    struct side none = {0, 0, 0, 0, 0, 0, 0}, to = {in, 0, in_type, in_counts, places, 0, 0};

    sends(&call, out, out_count, out_type);
    look_at_sides(&call, &none, &to);
}

void rvmc_check_Neighbor_alltoall(const void *out, int out_count, MPI_Datatype out_type, void *in, int in_count,
                                  MPI_Datatype in_type, MPI_Comm c)
{
    struct call call = begin("MPI_Neighbor_alltoall", RVMC_BEHIND, c);
    struct side from = {out, out_count, out_type, 0, 0, 0, 0}, to = {in, in_count, in_type, 0, 0, 0, 0};

    look_at_sides(&call, &from, &to);
}

void rvmc_check_Neighbor_alltoallv(const void *out, const int out_counts[], const int out_places[], MPI_Datatype out_type,
                                   void *in, const int in_counts[], const int in_places[], MPI_Datatype in_type, MPI_Comm c)
{
    struct call call = begin("MPI_Neighbor_alltoallv", RVMC_BEHIND, c);
    struct side from = {out, 0, out_type, out_counts, out_places, 0, 0}, to = {in, 0, in_type, in_counts, in_places, 0, 0};

    look_at_sides(&call, &from, &to);
}

void rvmc_check_Neighbor_alltoallw(const void *out, const int out_counts[], const MPI_Aint out_places[],
                                   const MPI_Datatype out_types[], void *in, const int in_counts[],
                                   const MPI_Aint in_places[], const MPI_Datatype in_types[], MPI_Comm c)
{
    struct call call = begin("MPI_Neighbor_alltoallw", RVMC_BEHIND, c);
    struct side from = {out, 0, 0, out_counts, 0, out_places, out_types}, to = {in, 0, 0, in_counts, 0, in_places, in_types};

    look_at_sides(&call, &from, &to);
}
