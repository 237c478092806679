/* topologies.h: what a communicator with a topology knows (MPI 4.1, chapter 8). */
#ifndef RVMC_TOPOLOGIES_H
#define RVMC_TOPOLOGIES_H

/* The numbers are: of a Cartesian topology its dimensions, then for each whether it is periodic, and then this rank's neighbors,
   before and behind it in each dimension; of a graph where each rank's edges end, and then the edges; of a
   distributed graph the sources, their weights, the destinations, their weights. */
struct rvmc_topology {
    int kind;                                     /* MPI_CART, MPI_GRAPH or MPI_DIST_GRAPH */
    int count, more;                              /* dimensions; ranks and edges; sources and destinations */
    int weighted;
    int numbers[];
};

/* Who sends to a rank and whom it sends to, in the order of the neighborhood collectives. */
struct rvmc_neighbors {
    int in, out;
    const int *sources, *destinations;
};

/* The topology of a communicator, or null. */
const struct rvmc_topology *rvmc_topology_of(MPI_Comm c);
struct rvmc_neighbors rvmc_neighbors_of(const struct rvmc_topology *t, const struct rvmc_communicator *of);
int rvmc_wrong_topology(const char *call, MPI_Comm c);

#endif
