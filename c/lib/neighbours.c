/* neighbours.c: neighborhood collectives (MPI 4.1, 8.6). All is sent before anything is received, and no send waits.
   The sends go in the order of the destinations backwards: where two ranks are neighbors in both directions of a dimension,
   what goes to the one before comes from the one behind (8.6). */
#include "../mpi.h"
#include "derived_calls.h"
#include "errors.h"
#include "group.h"
#include "topologies.h"

/* One buffer: a part for each neighbor, or the same for all. */
struct side {
    const void *buffer;
    int same, count;
    MPI_Datatype type;
    const int *counts, *places;
    const MPI_Aint *bytes;
    const MPI_Datatype *types;
    const char *names[4];                         /* the buffer's, the count's, the datatype's and that of several counts */
};

static MPI_Datatype type_of(const struct side *s, int i)
{
    return s->types ? s->types[i] : s->type;
}

static long count_of(const struct side *s, int i)
{
    return s->counts ? s->counts[i] : s->count;
}

static char *place_of(const struct side *s, int i)
{
    if (s->same)
        return (char *)s->buffer;
    if (s->bytes)
        return (char *)s->buffer + s->bytes[i];
    return (char *)s->buffer + extent_of(s->type) * (s->places ? (long)s->places[i] : (long)s->count * i);
}

static void check(struct group *g, const struct side *s, int neighbors)
{
    for (int i = 0; i < (s->counts ? neighbors : 1); i++)
        if (!is_type(type_of(s, i)))
            fault(g, RVMC_BAD_TYPE, s->names[2], type_of(s, i), 0);
        else if (count_of(s, i) < 0)
            fault(g, RVMC_BAD_COUNT, s->names[s->counts ? 3 : 1], count_of(s, i), 0);
        else if (count_of(s, i) && (s->buffer == MPI_IN_PLACE || (!s->buffer && RVMC_SIZE_OF(type_of(s, i)))) && !s->bytes &&
                 neighbors)
            fault(g, RVMC_BAD_BUFFER, s->names[0], (long)s->buffer, 0);
}

RVMC_INLINE int talk(const char *call, const struct side *from, const struct side *to, MPI_Comm c)
{
    struct group g = rvmc_group(call, c);
    const struct rvmc_topology *t = rvmc_topology_of(c);
    struct rvmc_neighbors n;

    if (g.code)
        return finish(&g);
    if (!t)
        return rvmc_wrong_topology(call, c);
    n = rvmc_neighbors_of(t, g.of);
    check(&g, from, n.out);
    check(&g, to, n.in);
    if (g.code == RVMC_BAD_TYPE && from->types)
        RVMC_IF_DERIVED((MPI_Datatype)g.value, (MPI_Datatype)g.value,
                        rvmc_derived_Neighbor_alltoallw(from->buffer, from->counts, from->bytes, from->types,
                                                        (void *)to->buffer, to->counts, to->bytes, to->types, c));
    for (int i = n.out - 1; i >= 0; i--)
        if (n.destinations[i] != MPI_PROC_NULL)
            give(&g, place_of(from, i), count_of(from, i), type_of(from, i), n.destinations[i]);
    for (int i = 0; i < n.in; i++)
        if (n.sources[i] != MPI_PROC_NULL)
            take(&g, place_of(to, i), count_of(to, i), type_of(to, i), n.sources[i]);
    return finish(&g);
}

#define OUT {"sendbuf", "sendcount", "sendtype", "sendcounts"}
#define IN {"recvbuf", "recvcount", "recvtype", "recvcounts"}

int MPI_Neighbor_allgather(const void *out, int out_count, MPI_Datatype out_type, void *in, int in_count,
                           MPI_Datatype in_type, MPI_Comm c)
{
    RVMC_IF_DERIVED(out_type, in_type, rvmc_derived_Neighbor_allgather(out, out_count, out_type, in, in_count, in_type, c));

    struct side from = {out, 1, out_count, out_type, 0, 0, 0, 0, OUT}, to = {in, 0, in_count, in_type, 0, 0, 0, 0, IN};

    return talk(rvmc_name_Neighbor_allgather, &from, &to, c);
}

int MPI_Neighbor_allgatherv(const void *out, int out_count, MPI_Datatype out_type, void *in, const int in_counts[],
                            const int places[], MPI_Datatype in_type, MPI_Comm c)
{
    RVMC_IF_DERIVED(out_type, in_type, rvmc_derived_Neighbor_allgatherv(out, out_count, out_type, in, in_counts, places, in_type, c));

    struct side from = {out, 1, out_count, out_type, 0, 0, 0, 0, OUT}, to = {in, 0, 0, in_type, in_counts, places, 0, 0, IN};

    return talk(rvmc_name_Neighbor_allgatherv, &from, &to, c);
}

int MPI_Neighbor_alltoall(const void *out, int out_count, MPI_Datatype out_type, void *in, int in_count,
                          MPI_Datatype in_type, MPI_Comm c)
{
    RVMC_IF_DERIVED(out_type, in_type, rvmc_derived_Neighbor_alltoall(out, out_count, out_type, in, in_count, in_type, c));

    struct side from = {out, 0, out_count, out_type, 0, 0, 0, 0, OUT}, to = {in, 0, in_count, in_type, 0, 0, 0, 0, IN};

    return talk(rvmc_name_Neighbor_alltoall, &from, &to, c);
}

int MPI_Neighbor_alltoallv(const void *out, const int out_counts[], const int out_places[], MPI_Datatype out_type, void *in,
                           const int in_counts[], const int in_places[], MPI_Datatype in_type, MPI_Comm c)
{
    RVMC_IF_DERIVED(out_type, in_type, rvmc_derived_Neighbor_alltoallv(out, out_counts, out_places, out_type, in, in_counts, in_places, in_type, c));

    struct side from = {out, 0, 0, out_type, out_counts, out_places, 0, 0, OUT};
    struct side to = {in, 0, 0, in_type, in_counts, in_places, 0, 0, IN};

    return talk(rvmc_name_Neighbor_alltoallv, &from, &to, c);
}

int MPI_Neighbor_alltoallw(const void *out, const int out_counts[], const MPI_Aint out_places[],
                           const MPI_Datatype out_types[], void *in, const int in_counts[], const MPI_Aint in_places[],
                           const MPI_Datatype in_types[], MPI_Comm c)
{
    struct side from = {out, 0, 0, 0, out_counts, 0, out_places, out_types, OUT};
    struct side to = {in, 0, 0, 0, in_counts, 0, in_places, in_types, IN};

    return talk(rvmc_name_Neighbor_alltoallw, &from, &to, c);
}
