/* declared_communicators.h: the calls of MPI 4.1, chapters 7 and 8, that are functions of the library. */
#ifndef RVMC_DECLARED_COMMUNICATORS_H
#define RVMC_DECLARED_COMMUNICATORS_H

/* --- groups (7.3) --- */

int MPI_Group_size(MPI_Group group, int *size);
int MPI_Group_rank(MPI_Group group, int *rank);
int MPI_Group_translate_ranks(MPI_Group group, int count, const int ranks[], MPI_Group other, int others[]);
int MPI_Group_compare(MPI_Group group, MPI_Group other, int *result);
int MPI_Comm_group(MPI_Comm c, MPI_Group *group);
int MPI_Group_union(MPI_Group group, MPI_Group other, MPI_Group *made);
int MPI_Group_intersection(MPI_Group group, MPI_Group other, MPI_Group *made);
int MPI_Group_difference(MPI_Group group, MPI_Group other, MPI_Group *made);
int MPI_Group_incl(MPI_Group group, int count, const int ranks[], MPI_Group *made);
int MPI_Group_excl(MPI_Group group, int count, const int ranks[], MPI_Group *made);
int MPI_Group_range_incl(MPI_Group group, int count, int ranges[][3], MPI_Group *made);
int MPI_Group_range_excl(MPI_Group group, int count, int ranges[][3], MPI_Group *made);
int MPI_Group_free(MPI_Group *group);

/* --- communicators (7.4) --- */

int MPI_Comm_compare(MPI_Comm c, MPI_Comm other, int *result);
int MPI_Comm_dup(MPI_Comm c, MPI_Comm *made);
int MPI_Comm_dup_with_info(MPI_Comm c, MPI_Info info, MPI_Comm *made);
int MPI_Comm_idup(MPI_Comm c, MPI_Comm *made, MPI_Request *request);
int MPI_Comm_idup_with_info(MPI_Comm c, MPI_Info info, MPI_Comm *made, MPI_Request *request);
int MPI_Comm_create(MPI_Comm c, MPI_Group group, MPI_Comm *made);
int MPI_Comm_create_group(MPI_Comm c, MPI_Group group, int tag, MPI_Comm *made);
int MPI_Comm_split(MPI_Comm c, int color, int key, MPI_Comm *made);
int MPI_Comm_split_type(MPI_Comm c, int type, int key, MPI_Info info, MPI_Comm *made);
int MPI_Comm_free(MPI_Comm *c);
int MPI_Comm_disconnect(MPI_Comm *c);

/* --- topologies (8.5) --- */

int MPI_Topo_test(MPI_Comm c, int *kind);
int MPI_Cart_create(MPI_Comm c, int dimensions, const int dims[], const int periods[], int reorder, MPI_Comm *made);
int MPI_Cart_map(MPI_Comm c, int dimensions, const int dims[], const int periods[], int *rank);
int MPI_Cartdim_get(MPI_Comm c, int *dimensions);
int MPI_Cart_get(MPI_Comm c, int most, int dims[], int periods[], int coordinates[]);
int MPI_Cart_rank(MPI_Comm c, const int coordinates[], int *rank);
int MPI_Cart_coords(MPI_Comm c, int rank, int most, int coordinates[]);
int MPI_Cart_shift(MPI_Comm c, int dimension, int by, int *source, int *dest);
int MPI_Cart_sub(MPI_Comm c, const int remain[], MPI_Comm *made);
int MPI_Dims_create(int count, int dimensions, int dims[]);
int MPI_Graph_create(MPI_Comm c, int count, const int index[], const int edges[], int reorder, MPI_Comm *made);
int MPI_Graph_map(MPI_Comm c, int count, const int index[], const int edges[], int *rank);
int MPI_Graphdims_get(MPI_Comm c, int *count, int *edges);
int MPI_Graph_get(MPI_Comm c, int most_index, int most_edges, int index[], int edges[]);
int MPI_Graph_neighbors_count(MPI_Comm c, int rank, int *count);
int MPI_Graph_neighbors(MPI_Comm c, int rank, int most, int neighbors[]);
int MPI_Dist_graph_create_adjacent(MPI_Comm c, int in, const int sources[], const int in_weights[], int out,
                                   const int destinations[], const int out_weights[], MPI_Info info, int reorder,
                                   MPI_Comm *made);
int MPI_Dist_graph_create(MPI_Comm c, int nodes, const int sources[], const int degrees[], const int destinations[],
                          const int weights[], MPI_Info info, int reorder, MPI_Comm *made);
int MPI_Dist_graph_neighbors_count(MPI_Comm c, int *in, int *out, int *weighted);
int MPI_Dist_graph_neighbors(MPI_Comm c, int most_in, int sources[], int in_weights[], int most_out, int destinations[],
                             int out_weights[]);

/* --- neighborhood collectives (8.6) --- */

int MPI_Neighbor_allgather(const void *out, int out_count, MPI_Datatype out_type, void *in, int in_count,
                           MPI_Datatype in_type, MPI_Comm c);
int MPI_Neighbor_allgatherv(const void *out, int out_count, MPI_Datatype out_type, void *in, const int in_counts[],
                            const int places[], MPI_Datatype in_type, MPI_Comm c);
int MPI_Neighbor_alltoall(const void *out, int out_count, MPI_Datatype out_type, void *in, int in_count,
                          MPI_Datatype in_type, MPI_Comm c);
int MPI_Neighbor_alltoallv(const void *out, const int out_counts[], const int out_places[], MPI_Datatype out_type, void *in,
                           const int in_counts[], const int in_places[], MPI_Datatype in_type, MPI_Comm c);
int MPI_Neighbor_alltoallw(const void *out, const int out_counts[], const MPI_Aint out_places[],
                           const MPI_Datatype out_types[], void *in, const int in_counts[], const MPI_Aint in_places[],
                           const MPI_Datatype in_types[], MPI_Comm c);

#endif
