/* topologies.c: Cartesian topologies and graphs (MPI 4.1, chapter 8). A topology orders no ranks anew: all run alike here. */
#include <stdlib.h>
#include <string.h>
#include "../mpi.h"
#include "errors.h"
#include "group.h"
#include "contexts.h"
#include "topologies.h"

/* --- what is wrong --- */

static const struct rvmc_topology *of_kind(MPI_Comm c, int kind)
{
    const struct rvmc_communicator *of = rvmc_idle() ? 0 : rvmc_known(c);

    return of && of->topology && of->topology->kind == kind ? of->topology : 0;
}

/* Why a communicator hasn't the topology that a call wants. */
static int lacks(const char *call, MPI_Comm c, const char *what)
{
    int error = rvmc_comm_code(call, rvmc_idle() ? RVMC_NOT_BEGUN : rvmc_known(c) ? RVMC_OK : RVMC_BAD_COMM, c);

    return error ? error : rvmc_trapped(rvmc_raise(call, c, MPI_ERR_TOPOLOGY, "comm", "the communicator has no %s topology", what));
}

static int wrong(const char *call, MPI_Comm c, int error, const char *argument, const char *format, long value)
{
    return rvmc_trapped(rvmc_raise(call, c, error, argument, format, value));
}

/* --- keeping one --- */

static void freed(MPI_Comm c)
{
    free(rvmc_table[c].topology);
    rvmc_table[c].topology = 0;
}

static size_t size_of(const struct rvmc_topology *t)
{
    int numbers = t->kind == MPI_DIST_GRAPH ? 2 * (t->count + t->more) : t->kind == MPI_CART ? 4 * t->count : t->count + t->more;

    return sizeof *t + sizeof(int) * (size_t)numbers;
}

static int copied(MPI_Comm from, MPI_Comm to)
{
    struct rvmc_topology *t = rvmc_table[from].topology, *copy = t ? malloc(size_of(t)) : 0;

    if (t && !copy)
        return rvmc_full_heap("MPI_Comm_dup");
    if (t)
        rvmc_table[to].topology = memcpy(copy, t, size_of(t));
    return MPI_SUCCESS;
}

static struct rvmc_topology *new_topology(int kind, int count, int more, int weighted)
{
    struct rvmc_topology head = {kind, count, more, weighted}, *t = malloc(size_of(&head));

    if (t)
        *t = head;
    return t;
}

/* Makes the communicator of the ranks of g that are less than size, in their order, and gives it the topology, which is freed
   where there is none for this rank. */
static int made_with(struct group *g, int size, struct rvmc_topology *t, MPI_Comm *made)
{
    int error = rvmc_split(g, g->me < size ? 0 : MPI_UNDEFINED, g->me, made);

    if (error || *made == MPI_COMM_NULL) {
        free(t);
        return error;
    }
    rvmc_hooks.copied_topology = copied;
    rvmc_hooks.freed_topology = freed;
    rvmc_table[*made].topology = t;
    return t ? MPI_SUCCESS : rvmc_full_heap(g->call);
}

int MPI_Topo_test(MPI_Comm c, int *kind)
{
    const struct rvmc_communicator *of = rvmc_idle() ? 0 : rvmc_known(c);

    *kind = of && of->topology ? of->topology->kind : MPI_UNDEFINED;
    return rvmc_comm_code("MPI_Topo_test", rvmc_idle() ? RVMC_NOT_BEGUN : of ? RVMC_OK : RVMC_BAD_COMM, c);
}

/* --- Cartesian topologies (8.5.1, 8.5.5 to 8.5.7) --- */

/* How many ranks a grid has, or -1 for one with a dimension that isn't positive, or with more than fit into most. */
static int grid(int dimensions, const int dims[], int most)
{
    long size = 1;

    for (int i = 0; i < dimensions && size >= 0; i++)
        size = dims[i] <= 0 || size * dims[i] > most ? -1 : size * dims[i];
    return (int)size;
}

static int wrong_grid(const struct group *g, int dimensions, const int dims[])
{
    if (dimensions < 0)
        return wrong(g->call, g->communicator, MPI_ERR_DIMS, "ndims", "%d dimensions", dimensions);
    for (int i = 0; i < dimensions; i++)
        if (dims[i] <= 0)
            return wrong(g->call, g->communicator, MPI_ERR_DIMS, "dims", "a dimension of %d", dims[i]);
    return wrong(g->call, g->communicator, MPI_ERR_ARG, "dims", "the grid has more places than the communicator, which has %d",
                 g->size);
}

/* The last dimension counts fastest. */
static void place(const struct rvmc_topology *t, int rank, int most, int coordinates[])
{
    for (int i = t->count - 1; i >= 0; i--) {
        if (i < most)
            coordinates[i] = rank % t->numbers[i];
        rank /= t->numbers[i];
    }
}

/* The rank at some coordinates, or -1 where one is outside of a dimension that isn't periodic. */
static int rank_at(const struct rvmc_topology *t, const int coordinates[])
{
    int rank = 0;

    for (int i = 0; i < t->count; i++) {
        int dim = t->numbers[i], at = coordinates[i];

        if ((at < 0 || at >= dim) && !t->numbers[t->count + i])
            return -1;
        rank = rank * dim + (at % dim + dim) % dim;
    }
    return rank;
}

/* The rank so many places on in a dimension, or MPI_PROC_NULL. */
static int shifted(const struct rvmc_topology *t, int me, int dimension, int by)
{
    int coordinates[t->count + 1], rank;

    place(t, me, t->count, coordinates);
    coordinates[dimension] += by;
    rank = rank_at(t, coordinates);
    return rank < 0 ? MPI_PROC_NULL : rank;
}

static struct rvmc_topology *new_grid(int dimensions, const int dims[], const int periods[], int me)
{
    struct rvmc_topology *t = new_topology(MPI_CART, dimensions, 0, 0);

    for (int i = 0; i < dimensions && t; i++) {
        t->numbers[i] = dims[i];
        t->numbers[dimensions + i] = periods[i] != 0;
    }
    for (int i = 0; i < 2 * dimensions && t; i++)
        t->numbers[2 * dimensions + i] = shifted(t, me, i / 2, i % 2 ? 1 : -1);
    return t;
}

int MPI_Cart_create(MPI_Comm c, int dimensions, const int dims[], const int periods[], int reorder, MPI_Comm *made)
{
    struct group g = rvmc_group("MPI_Cart_create", c);
    int size = dimensions < 0 ? -1 : grid(dimensions, dims, g.size);

    (void)reorder;
    if (!g.code && size < 0)
        return wrong_grid(&g, dimensions, dims);
    return made_with(&g, size, g.me < size ? new_grid(dimensions, dims, periods, g.me) : 0, made);
}

int MPI_Cart_map(MPI_Comm c, int dimensions, const int dims[], const int periods[], int *rank)
{
    struct group g = rvmc_group("MPI_Cart_map", c);
    int size = dimensions < 0 ? -1 : grid(dimensions, dims, g.size);

    (void)periods;
    if (!g.code && size < 0)
        return wrong_grid(&g, dimensions, dims);
    *rank = g.me < size ? g.me : MPI_UNDEFINED;
    out_of_count(&g);
    return finish(&g);
}

int MPI_Cartdim_get(MPI_Comm c, int *dimensions)
{
    const struct rvmc_topology *t = of_kind(c, MPI_CART);

    if (!t)
        return lacks("MPI_Cartdim_get", c, "Cartesian");
    *dimensions = t->count;
    return MPI_SUCCESS;
}

int MPI_Cart_get(MPI_Comm c, int most, int dims[], int periods[], int coordinates[])
{
    const struct rvmc_topology *t = of_kind(c, MPI_CART);

    if (!t)
        return lacks("MPI_Cart_get", c, "Cartesian");
    if (most < t->count)
        return wrong("MPI_Cart_get", c, MPI_ERR_ARG, "maxdims", "there are %d dimensions", t->count);
    for (int i = 0; i < t->count; i++) {
        dims[i] = t->numbers[i];
        periods[i] = t->numbers[t->count + i];
    }
    place(t, rvmc_table[c].me, t->count, coordinates);
    return MPI_SUCCESS;
}

int MPI_Cart_rank(MPI_Comm c, const int coordinates[], int *rank)
{
    const struct rvmc_topology *t = of_kind(c, MPI_CART);

    if (!t)
        return lacks("MPI_Cart_rank", c, "Cartesian");
    *rank = rank_at(t, coordinates);
    return *rank >= 0 ? MPI_SUCCESS : wrong("MPI_Cart_rank", c, MPI_ERR_ARG, "coords",
                                            "a coordinate is outside of a dimension that isn't periodic", 0);
}

static int wrong_rank(const char *call, MPI_Comm c, int rank, int size)
{
    if (rank >= 0 && rank < size)
        return MPI_SUCCESS;
    return rvmc_trapped(rvmc_raise(call, c, MPI_ERR_RANK, "rank", "rank %d, but the communicator has %d", (long)rank, (long)size));
}

int MPI_Cart_coords(MPI_Comm c, int rank, int most, int coordinates[])
{
    const struct rvmc_topology *t = of_kind(c, MPI_CART);
    int error;

    if (!t)
        return lacks("MPI_Cart_coords", c, "Cartesian");
    error = wrong_rank("MPI_Cart_coords", c, rank, rvmc_table[c].size);
    if (!error && most < t->count)
        error = wrong("MPI_Cart_coords", c, MPI_ERR_ARG, "maxdims", "there are %d dimensions", t->count);
    if (!error)
        place(t, rank, t->count, coordinates);
    return error;
}

int MPI_Cart_shift(MPI_Comm c, int dimension, int by, int *source, int *dest)
{
    const struct rvmc_topology *t = of_kind(c, MPI_CART);

    if (!t)
        return lacks("MPI_Cart_shift", c, "Cartesian");
    if (dimension < 0 || dimension >= t->count)
        return wrong("MPI_Cart_shift", c, MPI_ERR_ARG, "direction", "there is no dimension %d", dimension);
    *source = shifted(t, rvmc_table[c].me, dimension, -by);
    *dest = shifted(t, rvmc_table[c].me, dimension, by);
    return MPI_SUCCESS;
}

/* Those stay together that differ in the remaining dimensions alone. Where none remains, rank 0 alone gets a communicator, as
   by MPICH. */
int MPI_Cart_sub(MPI_Comm c, const int remain[], MPI_Comm *made)
{
    const struct rvmc_topology *t = of_kind(c, MPI_CART);
    struct group g = rvmc_group("MPI_Cart_sub", c);
    int dims[t ? t->count + 1 : 1], periods[t ? t->count + 1 : 1], at[t ? t->count + 1 : 1], color = 0, key = 0, n = 0, error;

    if (!t)
        return lacks("MPI_Cart_sub", c, "Cartesian");
    place(t, g.me, t->count, at);
    for (int i = 0; i < t->count; i++) {
        if (!remain[i]) {
            color = color * t->numbers[i] + at[i];
            continue;
        }
        key = key * t->numbers[i] + at[i];
        dims[n] = t->numbers[i];
        periods[n++] = t->numbers[t->count + i];
    }
    error = rvmc_split(&g, n || !g.me ? color : MPI_UNDEFINED, key, made);
    if (error || *made == MPI_COMM_NULL)
        return error;
    rvmc_table[*made].topology = new_grid(n, dims, periods, key);
    return rvmc_table[*made].topology ? MPI_SUCCESS : rvmc_full_heap(g.call);
}

/* Whether so many can stand in a grid of free dimensions with none above most; then the first is the least that can be. */
static int factored(int count, int dimensions, int most, int dims[])
{
    if (dimensions == 0)
        return count == 1;
    for (int first = 1; first <= most && first <= count; first++) {
        if (count % first)
            continue;
        dims[0] = first;
        if (factored(count / first, dimensions - 1, first, dims + 1))
            return 1;
    }
    return 0;
}

/* The free dimensions are as alike as can be, the largest first (8.5.2). */
int MPI_Dims_create(int count, int dimensions, int dims[])
{
    static const char call[] = "MPI_Dims_create";
    int fixed = 1, open = 0, found[dimensions > 0 ? dimensions : 1];

    if (count <= 0)
        return wrong(call, MPI_COMM_WORLD, MPI_ERR_ARG, "nnodes", "%d ranks", count);
    if (dimensions < 0)
        return wrong(call, MPI_COMM_WORLD, MPI_ERR_DIMS, "ndims", "%d dimensions", dimensions);
    for (int i = 0; i < dimensions; i++) {
        if (dims[i] < 0)
            return wrong(call, MPI_COMM_WORLD, MPI_ERR_DIMS, "dims", "a dimension of %d", dims[i]);
        fixed *= dims[i] ? dims[i] : 1;
        open += !dims[i];
    }
    if (count % fixed || (!open && count != fixed))
        return wrong(call, MPI_COMM_WORLD, MPI_ERR_DIMS, "dims", "%d ranks can't stand in a grid of these dimensions", count);
    factored(count / fixed, open, count / fixed, found);
    for (int i = 0, next = 0; i < dimensions; i++)
        if (!dims[i])
            dims[i] = found[next++];
    return MPI_SUCCESS;
}

/* --- graphs (8.5.3, 8.5.5, 8.5.6) --- */

static int wrong_graph(const struct group *g, int count, const int index[], const int edges[])
{
    int before = 0;

    if (count < 0 || count > g->size)
        return wrong(g->call, g->communicator, MPI_ERR_ARG, "nnodes", "%d nodes, but the communicator has fewer ranks", count);
    for (int i = 0; i < count; before = index[i++])
        if (index[i] < before)
            return wrong(g->call, g->communicator, MPI_ERR_ARG, "index", "%d is less than what stands before it", index[i]);
    for (int i = 0; i < before; i++)
        if (edges[i] < 0 || edges[i] >= count)
            return wrong(g->call, g->communicator, MPI_ERR_ARG, "edges", "%d is no node", edges[i]);
    return MPI_SUCCESS;
}

int MPI_Graph_create(MPI_Comm c, int count, const int index[], const int edges[], int reorder, MPI_Comm *made)
{
    struct group g = rvmc_group("MPI_Graph_create", c);
    int error = g.code ? MPI_SUCCESS : wrong_graph(&g, count, index, edges), more;
    struct rvmc_topology *t;

    (void)reorder;
    if (error)
        return error;
    more = g.code || !count ? 0 : index[count - 1];
    t = new_topology(MPI_GRAPH, count, more, 0);
    if (t && !g.code) {
        memcpy(t->numbers, index, sizeof(int) * (size_t)count);
        memcpy(t->numbers + count, edges, sizeof(int) * (size_t)more);
    }
    return made_with(&g, count, t, made);
}

int MPI_Graph_map(MPI_Comm c, int count, const int index[], const int edges[], int *rank)
{
    struct group g = rvmc_group("MPI_Graph_map", c);
    int error = g.code ? MPI_SUCCESS : wrong_graph(&g, count, index, edges);

    if (error)
        return error;
    *rank = g.me < count ? g.me : MPI_UNDEFINED;
    out_of_count(&g);
    return finish(&g);
}

int MPI_Graphdims_get(MPI_Comm c, int *count, int *edges)
{
    const struct rvmc_topology *t = of_kind(c, MPI_GRAPH);

    if (!t)
        return lacks("MPI_Graphdims_get", c, "graph");
    *count = t->count;
    *edges = t->more;
    return MPI_SUCCESS;
}

static int least(int a, int b)
{
    return a < b ? a : b;
}

int MPI_Graph_get(MPI_Comm c, int most_index, int most_edges, int index[], int edges[])
{
    const struct rvmc_topology *t = of_kind(c, MPI_GRAPH);

    if (!t)
        return lacks("MPI_Graph_get", c, "graph");
    if (most_index < t->count)
        return wrong("MPI_Graph_get", c, MPI_ERR_ARG, "maxindex", "there are %d nodes", t->count);
    if (most_edges < t->more)
        return wrong("MPI_Graph_get", c, MPI_ERR_ARG, "maxedges", "there are %d edges", t->more);
    memcpy(index, t->numbers, sizeof(int) * (size_t)t->count);
    memcpy(edges, t->numbers + t->count, sizeof(int) * (size_t)t->more);
    return MPI_SUCCESS;
}

/* The edges of a rank, and how many they are. */
static const int *edges_of(const struct rvmc_topology *t, int rank, int *count)
{
    int first = rank ? t->numbers[rank - 1] : 0;

    *count = t->numbers[rank] - first;
    return t->numbers + t->count + first;
}

int MPI_Graph_neighbors_count(MPI_Comm c, int rank, int *count)
{
    const struct rvmc_topology *t = of_kind(c, MPI_GRAPH);
    int error;

    if (!t)
        return lacks("MPI_Graph_neighbors_count", c, "graph");
    error = wrong_rank("MPI_Graph_neighbors_count", c, rank, t->count);
    if (!error)
        edges_of(t, rank, count);
    return error;
}

int MPI_Graph_neighbors(MPI_Comm c, int rank, int most, int neighbors[])
{
    const struct rvmc_topology *t = of_kind(c, MPI_GRAPH);
    const int *edges;
    int error, count;

    if (!t)
        return lacks("MPI_Graph_neighbors", c, "graph");
    error = wrong_rank("MPI_Graph_neighbors", c, rank, t->count);
    if (error)
        return error;
    edges = edges_of(t, rank, &count);
    memcpy(neighbors, edges, sizeof(int) * (size_t)least(count, most));
    return MPI_SUCCESS;
}

/* --- distributed graphs (8.5.4, 8.5.6) --- */

static int wrong_ranks(const struct group *g, int count, const int ranks[], const char *counted, const char *argument)
{
    if (count < 0)
        return wrong(g->call, g->communicator, MPI_ERR_ARG, counted, "count %d is negative", count);
    for (int i = 0; i < count; i++)
        if (ranks[i] < 0 || ranks[i] >= g->size)
            return wrong(g->call, g->communicator, MPI_ERR_RANK, argument, "%d is no rank of the communicator", ranks[i]);
    return MPI_SUCCESS;
}

static void put_weights(int to[], const int weights[], int count)
{
    for (int i = 0; i < count; i++)
        to[i] = weights == MPI_UNWEIGHTED || weights == MPI_WEIGHTS_EMPTY ? 1 : weights[i];
}

int MPI_Dist_graph_create_adjacent(MPI_Comm c, int in, const int sources[], const int in_weights[], int out,
                                   const int destinations[], const int out_weights[], MPI_Info info, int reorder,
                                   MPI_Comm *made)
{
    struct group g = rvmc_group("MPI_Dist_graph_create_adjacent", c);
    int error = g.code ? MPI_SUCCESS : wrong_ranks(&g, in, sources, "indegree", "sources");
    struct rvmc_topology *t;

    (void)info;
    (void)reorder;
    error = error || g.code ? error : wrong_ranks(&g, out, destinations, "outdegree", "destinations");
    if (error)
        return error;
    t = g.code ? 0 : new_topology(MPI_DIST_GRAPH, in, out, in_weights != MPI_UNWEIGHTED);
    if (t) {
        memcpy(t->numbers, sources, sizeof(int) * (size_t)in);
        put_weights(t->numbers + in, in_weights, in);
        memcpy(t->numbers + 2 * in, destinations, sizeof(int) * (size_t)out);
        put_weights(t->numbers + 2 * in + out, out_weights, out);
    }
    return made_with(&g, g.size, t, made);
}

/* All edges that ranks have named: source, destination and weight of each. */
struct edges {
    int count, *numbers;
};

/* Those of this rank, or null where the heap is full. */
static int *own_edges(const struct group *g, int nodes, const int sources[], const int degrees[], const int destinations[],
                      const int weights[], int count)
{
    int *numbers = malloc(sizeof(int) * 3 * (size_t)(count + 1)), edge = 0;

    for (int i = 0; i < nodes && numbers && !g->code; i++)
        for (int k = 0; k < degrees[i]; k++, edge++) {
            numbers[3 * edge] = sources[i];
            numbers[3 * edge + 1] = destinations[edge];
            numbers[3 * edge + 2] = weights == MPI_UNWEIGHTED || weights == MPI_WEIGHTS_EMPTY ? 1 : weights[edge];
        }
    return numbers;
}

/* Each rank says what it names to all others, the ranks in turn. */
RVMC_INLINE void exchange(struct group *g, const struct edges *mine, struct edges *all)
{
    for (int r = 0; r < g->size && !g->code; r++) {
        int count = mine->count;

        for (int to = 0; to < g->size && r == g->me; to++)
            if (to != g->me) {
                give(g, &count, 1, MPI_INT, to);
                give(g, mine->numbers, 3L * count, MPI_INT, to);
            }
        if (r != g->me)
            take(g, &count, 1, MPI_INT, r);
        if (g->code)
            return;
        all->numbers = realloc(all->numbers, sizeof(int) * 3 * (size_t)(all->count + count + 1));
        if (!all->numbers) {
            fault(g, RVMC_NO_MEMORY, 0, 0, 0);
            return;
        }
        if (r == g->me)
            memcpy(all->numbers + 3 * all->count, mine->numbers, sizeof(int) * 3 * (size_t)count);
        else
            take(g, all->numbers + 3 * all->count, 3L * count, MPI_INT, r);
        all->count += count;
    }
}

/* The edges to this rank, or those from it. */
static int count_ends(const struct edges *all, int end, int me)
{
    int count = 0;

    for (int i = 0; i < all->count; i++)
        count += all->numbers[3 * i + end] == me;
    return count;
}

static void put_ends(const struct edges *all, int end, int me, int to[], int weights[])
{
    for (int i = 0; i < all->count; i++)
        if (all->numbers[3 * i + end] == me) {
            *to++ = all->numbers[3 * i + !end];
            *weights++ = all->numbers[3 * i + 2];
        }
}

int MPI_Dist_graph_create(MPI_Comm c, int nodes, const int sources[], const int degrees[], const int destinations[],
                          const int weights[], MPI_Info info, int reorder, MPI_Comm *made)
{
    struct group g = rvmc_group("MPI_Dist_graph_create", c);
    int error = g.code ? MPI_SUCCESS : wrong_ranks(&g, nodes, sources, "n", "sources");
    struct edges mine = {0, 0}, all = {0, 0};
    struct rvmc_topology *t = 0;

    (void)info;
    (void)reorder;
    for (int i = 0; i < nodes && !error && !g.code; i++)
        mine.count += degrees[i] < 0 ? 0 : degrees[i];
    error = error || g.code ? error : wrong_ranks(&g, mine.count, destinations, "degrees", "destinations");
    if (error)
        return error;
    mine.numbers = own_edges(&g, nodes, sources, degrees, destinations, weights, mine.count);
    if (!mine.numbers)
        fault(&g, RVMC_NO_MEMORY, 0, 0, 0);
    exchange(&g, &mine, &all);
    free(mine.numbers);
    if (!g.code) {
        int in = count_ends(&all, 1, g.me), out = count_ends(&all, 0, g.me);

        t = new_topology(MPI_DIST_GRAPH, in, out, weights != MPI_UNWEIGHTED);
        if (t) {
            put_ends(&all, 1, g.me, t->numbers, t->numbers + in);
            put_ends(&all, 0, g.me, t->numbers + 2 * in, t->numbers + 2 * in + out);
        }
    }
    free(all.numbers);
    return made_with(&g, g.size, t, made);
}

int MPI_Dist_graph_neighbors_count(MPI_Comm c, int *in, int *out, int *weighted)
{
    const struct rvmc_topology *t = of_kind(c, MPI_DIST_GRAPH);

    if (!t)
        return lacks("MPI_Dist_graph_neighbors_count", c, "distributed graph");
    *in = t->count;
    *out = t->more;
    *weighted = t->weighted;
    return MPI_SUCCESS;
}

/* Some of one side, with their weights where these were given and are wanted. */
static void get(const struct rvmc_topology *t, const int *from, int count, int most, int ranks[], int weights[])
{
    size_t size = sizeof(int) * (size_t)least(count, most);

    memcpy(ranks, from, size);
    if (t->weighted && weights != MPI_UNWEIGHTED && weights != MPI_WEIGHTS_EMPTY)
        memcpy(weights, from + count, size);
}

int MPI_Dist_graph_neighbors(MPI_Comm c, int most_in, int sources[], int in_weights[], int most_out, int destinations[],
                             int out_weights[])
{
    const struct rvmc_topology *t = of_kind(c, MPI_DIST_GRAPH);

    if (!t)
        return lacks("MPI_Dist_graph_neighbors", c, "distributed graph");
    get(t, t->numbers, t->count, most_in, sources, in_weights);
    get(t, t->numbers + 2 * t->count, t->more, most_out, destinations, out_weights);
    return MPI_SUCCESS;
}

/* --- neighborhoods (8.6) --- */

const struct rvmc_topology *rvmc_topology_of(MPI_Comm c)
{
    const struct rvmc_communicator *of = rvmc_idle() ? 0 : rvmc_known(c);

    return of ? of->topology : 0;
}

int rvmc_wrong_topology(const char *call, MPI_Comm c)
{
    return lacks(call, c, "");
}

struct rvmc_neighbors rvmc_neighbors_of(const struct rvmc_topology *t, const struct rvmc_communicator *of)
{
    int count = 2 * t->count;
    const int *edges;

    if (t->kind == MPI_DIST_GRAPH)
        return (struct rvmc_neighbors){t->count, t->more, t->numbers, t->numbers + 2 * t->count};
    if (t->kind == MPI_GRAPH) {
        edges = edges_of(t, of->me, &count);
        return (struct rvmc_neighbors){count, count, edges, edges};
    }
    return (struct rvmc_neighbors){count, count, t->numbers + count, t->numbers + count};
}
