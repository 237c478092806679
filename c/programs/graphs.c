/* Graphs of ranks, one that all know and one of which each rank knows a part, and what neighbors send each other.

   c/rvmc-cc -n 4 -o graphs.image c/programs/graphs.c && rvmc run < graphs.image */
#include <mpi.h>
#include <stdio.h>

/* Three ranks: 0 - 1, 0 - 2; rank 3 stays out. */
static void one_graph(void)
{
    int index[3] = {2, 3, 4}, edges[4] = {1, 2, 0, 0}, nodes, count, kind, neighbors[4], rank, mine[2], theirs[2] = {-1, -1};
    MPI_Comm graph;

    MPI_Graph_create(MPI_COMM_WORLD, 3, index, edges, 0, &graph);
    if (graph == MPI_COMM_NULL) {
        printf("out of the graph\n");
        return;
    }
    MPI_Topo_test(graph, &kind);
    MPI_Graphdims_get(graph, &nodes, &count);
    printf("%s of %d and %d\n", kind == MPI_GRAPH ? "graph" : "WRONG", nodes, count);
    MPI_Graph_get(graph, 3, 4, index, edges);
    printf("index %d %d %d, edges %d %d %d %d\n", index[0], index[1], index[2], edges[0], edges[1], edges[2], edges[3]);
    MPI_Comm_rank(graph, &rank);
    MPI_Graph_neighbors_count(graph, rank, &count);
    MPI_Graph_neighbors(graph, rank, 4, neighbors);
    for (int i = 0; i < count; i++)
        printf("neighbor %d\n", neighbors[i]);
    for (int i = 0; i < count; i++)
        mine[i] = 10 * rank + i;
    MPI_Neighbor_alltoall(mine, 1, MPI_INT, theirs, 1, MPI_INT, graph);
    printf("each: %d %d\n", theirs[0], theirs[1]);
    MPI_Neighbor_allgather(&rank, 1, MPI_INT, theirs, 1, MPI_INT, graph);
    printf("all: %d %d\n", theirs[0], theirs[1]);
    MPI_Comm_free(&graph);
}

static void show(MPI_Comm graph)
{
    int in, out, weighted, sources[8], destinations[8], in_weights[8] = {0}, out_weights[8] = {0}, kind;

    MPI_Topo_test(graph, &kind);
    MPI_Dist_graph_neighbors_count(graph, &in, &out, &weighted);
    MPI_Dist_graph_neighbors(graph, in, sources, in_weights, out, destinations, out_weights);
    printf("%s, %sweighted:", kind == MPI_DIST_GRAPH ? "distributed" : "WRONG", weighted ? "" : "not ");
    for (int i = 0; i < in; i++)
        printf(" from %d by %d", sources[i], in_weights[i]);
    for (int i = 0; i < out; i++)
        printf(" to %d by %d", destinations[i], out_weights[i]);
    printf("\n");
}

/* A ring with one edge across: each rank names its own sides. */
static void known_sides(int rank, int size)
{
    int sources[2] = {(rank + size - 1) % size, 0}, destinations[2] = {(rank + 1) % size, 2};
    int in_weights[2] = {5, 7}, out_weights[2] = {5, 7}, values[3] = {rank, 10 + rank, 20 + rank}, got[4] = {-1, -1, -1, -1};
    int out_counts[2] = {1, 2}, out_places[2] = {0, 1}, in_counts[2] = {1, 2}, in_places[2] = {3, 0};
    MPI_Comm graph, dup;

    MPI_Dist_graph_create_adjacent(MPI_COMM_WORLD, rank == 2 ? 2 : 1, sources, in_weights, rank == 0 ? 2 : 1, destinations,
                                   out_weights, MPI_INFO_NULL, 0, &graph);
    show(graph);
    MPI_Neighbor_alltoallv(values, out_counts, out_places, MPI_INT, got, in_counts, in_places, MPI_INT, graph);
    printf("parts: %d %d %d %d\n", got[0], got[1], got[2], got[3]);
    MPI_Comm_dup(graph, &dup);
    show(dup);
    MPI_Comm_free(&dup);
    MPI_Comm_free(&graph);
    MPI_Dist_graph_create_adjacent(MPI_COMM_WORLD, 1, sources, MPI_UNWEIGHTED, 1, destinations, MPI_UNWEIGHTED, MPI_INFO_NULL,
                                   0, &graph);
    show(graph);
    MPI_Neighbor_allgather(&rank, 1, MPI_INT, got, 1, MPI_INT, graph);
    printf("before: %d\n", got[0]);
    MPI_Comm_free(&graph);
}

/* Rank 1 names all edges of a star, which go out from rank 3. */
static void told_by_one(int rank)
{
    int source = 3, degree = 3, destinations[3] = {0, 1, 2}, weights[3] = {2, 3, 4}, got = -1, values[3] = {30, 31, 32};
    MPI_Comm graph;

    MPI_Dist_graph_create(MPI_COMM_WORLD, rank == 1, &source, &degree, destinations, weights, MPI_INFO_NULL, 0, &graph);
    show(graph);
    MPI_Neighbor_alltoall(values, 1, MPI_INT, &got, 1, MPI_INT, graph);
    printf("star: %d\n", got);
    MPI_Comm_free(&graph);
}

int main(int argc, char *argv[])
{
    int rank, size;

    MPI_Init(&argc, &argv);
    MPI_Comm_rank(MPI_COMM_WORLD, &rank);
    MPI_Comm_size(MPI_COMM_WORLD, &size);
    one_graph();
    known_sides(rank, size);
    told_by_one(rank);
    MPI_Finalize();
    return 0;
}
