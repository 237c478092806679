/* later_neighbours.c: neighborhood collectives that don't wait, and persistent ones (MPI 4.1, 8.7, 8.8). */
#define RVMC_OF_DERIVED
#include "derived_calls.h"
#include "../mpi.h"
#include "errors.h"
#include "group.h"
#include "later.h"

#define OUT {"sendbuf", "sendcount", "sendtype", "sendcounts"}
#define IN {"recvbuf", "recvcount", "recvtype", "recvcounts"}

static void check(struct group *g, const struct side *s, int neighbors)
{
    for (int i = 0; i < (s->counts ? neighbors : 1) && !g->code; i++) {
        MPI_Datatype type = side_type(s, i);

        if (!is_type(type))
            fault(g, RVMC_BAD_TYPE, s->names[2], type, 0);
        else if (side_count(s, i) < 0)
            fault(g, RVMC_BAD_COUNT, s->names[s->counts ? 3 : 1], side_count(s, i), 0);
        else if (side_count(s, i) && (s->buffer == MPI_IN_PLACE || (!s->buffer && RVMC_SIZE_OF(type))) && !s->bytes && neighbors)
            fault(g, RVMC_BAD_BUFFER, s->names[0], (long)s->buffer, 0);
    }
}

/* Whom this rank sends to and receives from. Without a topology that is told, and the answer is what the call returns. */
static int with_neighbors(struct later *l)
{
    const struct rvmc_topology *t = rvmc_topology_of(l->g.communicator);

    if (l->g.code)
        return MPI_SUCCESS;
    if (!t)
        return rvmc_wrong_topology(l->g.call, l->g.communicator);
    l->neighbors = rvmc_neighbors_of(t, l->g.of);
    check(&l->g, &l->out, l->neighbors.out);
    check(&l->g, &l->in, l->neighbors.in);
    return MPI_SUCCESS;
}

#define BOTH(doesnt_wait, persistent, from, to, ...) \
    int doesnt_wait(__VA_ARGS__, MPI_Request *request) \
    { \
        struct later l = {.g = rvmc_group(#doesnt_wait, c), .out = from, .in = to}; \
        int error = with_neighbors(&l); \
        return error ? error : rvmc_later_begin(&l, request); \
    } \
    int persistent(__VA_ARGS__, MPI_Info info, MPI_Request *request) \
    { \
        struct later l = {.g = rvmc_group(#persistent, c), .out = from, .in = to}; \
        int error = with_neighbors(&l); \
        (void)info; \
        return error ? error : rvmc_later_init(&l, request); \
    }
#define SIDE(...) ((struct side){__VA_ARGS__})

BOTH(MPI_Ineighbor_allgather, MPI_Neighbor_allgather_init, SIDE(out, 1, out_count, out_type, 0, 0, 0, 0, OUT),
     SIDE(in, 0, in_count, in_type, 0, 0, 0, 0, IN), const void *out, int out_count, MPI_Datatype out_type, void *in,
     int in_count, MPI_Datatype in_type, MPI_Comm c)
BOTH(MPI_Ineighbor_allgatherv, MPI_Neighbor_allgatherv_init, SIDE(out, 1, out_count, out_type, 0, 0, 0, 0, OUT),
     SIDE(in, 0, 0, in_type, in_counts, places, 0, 0, IN), const void *out, int out_count, MPI_Datatype out_type, void *in,
     const int in_counts[], const int places[], MPI_Datatype in_type, MPI_Comm c)
BOTH(MPI_Ineighbor_alltoall, MPI_Neighbor_alltoall_init, SIDE(out, 0, out_count, out_type, 0, 0, 0, 0, OUT),
     SIDE(in, 0, in_count, in_type, 0, 0, 0, 0, IN), const void *out, int out_count, MPI_Datatype out_type, void *in,
     int in_count, MPI_Datatype in_type, MPI_Comm c)
BOTH(MPI_Ineighbor_alltoallv, MPI_Neighbor_alltoallv_init, SIDE(out, 0, 0, out_type, out_counts, out_places, 0, 0, OUT),
     SIDE(in, 0, 0, in_type, in_counts, in_places, 0, 0, IN), const void *out, const int out_counts[], const int out_places[],
     MPI_Datatype out_type, void *in, const int in_counts[], const int in_places[], MPI_Datatype in_type, MPI_Comm c)
BOTH(MPI_Ineighbor_alltoallw, MPI_Neighbor_alltoallw_init, SIDE(out, 0, 0, 0, out_counts, 0, out_places, out_types, OUT),
     SIDE(in, 0, 0, 0, in_counts, 0, in_places, in_types, IN), const void *out, const int out_counts[],
     const MPI_Aint out_places[], const MPI_Datatype out_types[], void *in, const int in_counts[], const MPI_Aint in_places[],
     const MPI_Datatype in_types[], MPI_Comm c)
