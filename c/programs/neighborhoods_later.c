/* Neighborhood collectives that don't wait, several of them at a time, and persistent ones, on a grid and on a graph.

   c/rvmc-cc -n 4 -o neighborhoods_later.image c/programs/neighborhoods_later.c && rvmc run < neighborhoods_later.image */
#include <mpi.h>
#include <stdio.h>

#define MOST 4

static void show(const char *name, const int *got, int count)
{
    printf("%s:", name);
    for (int i = 0; i < count; i++)
        printf(" %d", got[i]);
    printf("\n");
}

static void fill(int *numbers, int count, int first)
{
    for (int i = 0; i < count; i++)
        numbers[i] = first < 0 ? -1 : first + i;
}

/* A ring: each rank has one neighbor on each side. All five calls are on their way at the same time. */
static void five_at_a_time(MPI_Comm ring, int rank)
{
    int mine[MOST], got[5][MOST], counts[2] = {2, 1}, others[2] = {1, 2}, places[2] = {2, 0};
    MPI_Aint bytes[2] = {2 * sizeof(int), 0};
    MPI_Datatype types[2] = {MPI_INT, MPI_INT};
    MPI_Request requests[5];

    fill(mine, MOST, 10 * rank);
    for (int i = 0; i < 5; i++)
        fill(got[i], MOST, -1);
    MPI_Ineighbor_allgather(mine, 2, MPI_INT, got[0], 2, MPI_INT, ring, requests);
    MPI_Ineighbor_allgatherv(mine, 1, MPI_INT, got[1], (int[]){1, 1}, places, MPI_INT, ring, requests + 1);
    MPI_Ineighbor_alltoall(mine, 2, MPI_INT, got[2], 2, MPI_INT, ring, requests + 2);
    MPI_Ineighbor_alltoallv(mine, counts, places, MPI_INT, got[3], others, places, MPI_INT, ring, requests + 3);
    MPI_Ineighbor_alltoallw(mine, counts, bytes, types, got[4], others, bytes, types, ring, requests + 4);
    MPI_Wait(requests + 4, MPI_STATUS_IGNORE);
    MPI_Waitall(4, requests, MPI_STATUSES_IGNORE);
    show("allgather", got[0], MOST);
    show("allgatherv", got[1], MOST);
    show("alltoall", got[2], MOST);
    show("alltoallv", got[3], MOST);
    show("alltoallw", got[4], MOST);
}

/* The same request twice. */
static void again(MPI_Comm ring, int rank)
{
    int mine[2] = {0, 0}, got[2];
    MPI_Request request;

    MPI_Neighbor_alltoall_init(mine, 1, MPI_INT, got, 1, MPI_INT, ring, MPI_INFO_NULL, &request);
    for (int round = 0; round < 2; round++) {
        fill(mine, 2, 1000 * round + 10 * rank);
        MPI_Start(&request);
        MPI_Wait(&request, MPI_STATUS_IGNORE);
        show("again", got, 2);
    }
    MPI_Request_free(&request);
}

/* A star, from rank 0 to all others and back. */
static void star(int rank, int size)
{
    int others[MOST], in = rank ? 1 : size - 1, mine[MOST], got[MOST];
    MPI_Comm graph;
    MPI_Request request;

    for (int i = 0; i < in; i++)
        others[i] = rank ? 0 : i + 1;
    MPI_Dist_graph_create_adjacent(MPI_COMM_WORLD, in, others, MPI_UNWEIGHTED, in, others, MPI_UNWEIGHTED, MPI_INFO_NULL, 0,
                                   &graph);
    fill(mine, MOST, 100 * rank);
    fill(got, MOST, -1);
    MPI_Ineighbor_alltoall(mine, 1, MPI_INT, got, 1, MPI_INT, graph, &request);
    MPI_Comm_free(&graph);
    MPI_Wait(&request, MPI_STATUS_IGNORE);
    show("star", got, MOST);
}

int main(int argc, char *argv[])
{
    int rank, size, dims[1], periods[1] = {1};
    MPI_Comm ring;

    MPI_Init(&argc, &argv);
    MPI_Comm_rank(MPI_COMM_WORLD, &rank);
    MPI_Comm_size(MPI_COMM_WORLD, &size);
    dims[0] = size;
    MPI_Cart_create(MPI_COMM_WORLD, 1, dims, periods, 0, &ring);
    five_at_a_time(ring, rank);
    again(ring, rank);
    star(rank, size);
    MPI_Comm_free(&ring);
    MPI_Finalize();
    return 0;
}
