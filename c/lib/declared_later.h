/* declared_later.h: the collectives that don't wait, and those that a program makes persistent (MPI 4.1, 6.12, 6.13). */
#ifndef RVMC_DECLARED_LATER_H
#define RVMC_DECLARED_LATER_H

#define RVMC_BOTH(doesnt_wait, persistent, ...) \
    int MPI_##doesnt_wait(__VA_ARGS__, MPI_Request *request); \
    int MPI_##persistent(__VA_ARGS__, MPI_Info info, MPI_Request *request)

RVMC_BOTH(Ibarrier, Barrier_init, MPI_Comm c);
RVMC_BOTH(Ibcast, Bcast_init, void *buffer, int count, MPI_Datatype type, int root, MPI_Comm c);
RVMC_BOTH(Igather, Gather_init, const void *out, int out_count, MPI_Datatype out_type, void *in, int in_count,
          MPI_Datatype in_type, int root, MPI_Comm c);
RVMC_BOTH(Igatherv, Gatherv_init, const void *out, int out_count, MPI_Datatype out_type, void *in, const int in_counts[],
          const int places[], MPI_Datatype in_type, int root, MPI_Comm c);
RVMC_BOTH(Iscatter, Scatter_init, const void *out, int out_count, MPI_Datatype out_type, void *in, int in_count,
          MPI_Datatype in_type, int root, MPI_Comm c);
RVMC_BOTH(Iscatterv, Scatterv_init, const void *out, const int out_counts[], const int places[], MPI_Datatype out_type,
          void *in, int in_count, MPI_Datatype in_type, int root, MPI_Comm c);
RVMC_BOTH(Iallgather, Allgather_init, const void *out, int out_count, MPI_Datatype out_type, void *in, int in_count,
          MPI_Datatype in_type, MPI_Comm c);
RVMC_BOTH(Iallgatherv, Allgatherv_init, const void *out, int out_count, MPI_Datatype out_type, void *in, const int in_counts[],
          const int places[], MPI_Datatype in_type, MPI_Comm c);
RVMC_BOTH(Ialltoall, Alltoall_init, const void *out, int out_count, MPI_Datatype out_type, void *in, int in_count,
          MPI_Datatype in_type, MPI_Comm c);
RVMC_BOTH(Ialltoallv, Alltoallv_init, const void *out, const int out_counts[], const int out_places[], MPI_Datatype out_type,
          void *in, const int in_counts[], const int in_places[], MPI_Datatype in_type, MPI_Comm c);
RVMC_BOTH(Ialltoallw, Alltoallw_init, const void *out, const int out_counts[], const int out_places[],
          const MPI_Datatype out_types[], void *in, const int in_counts[], const int in_places[],
          const MPI_Datatype in_types[], MPI_Comm c);

RVMC_BOTH(Ineighbor_allgather, Neighbor_allgather_init, const void *out, int out_count, MPI_Datatype out_type, void *in,
          int in_count, MPI_Datatype in_type, MPI_Comm c);
RVMC_BOTH(Ineighbor_allgatherv, Neighbor_allgatherv_init, const void *out, int out_count, MPI_Datatype out_type, void *in,
          const int in_counts[], const int places[], MPI_Datatype in_type, MPI_Comm c);
RVMC_BOTH(Ineighbor_alltoall, Neighbor_alltoall_init, const void *out, int out_count, MPI_Datatype out_type, void *in,
          int in_count, MPI_Datatype in_type, MPI_Comm c);
RVMC_BOTH(Ineighbor_alltoallv, Neighbor_alltoallv_init, const void *out, const int out_counts[], const int out_places[],
          MPI_Datatype out_type, void *in, const int in_counts[], const int in_places[], MPI_Datatype in_type, MPI_Comm c);
RVMC_BOTH(Ineighbor_alltoallw, Neighbor_alltoallw_init, const void *out, const int out_counts[], const MPI_Aint out_places[],
          const MPI_Datatype out_types[], void *in, const int in_counts[], const MPI_Aint in_places[],
          const MPI_Datatype in_types[], MPI_Comm c);

/* As the reductions that wait, these have the function for their datatype behind MPI's arguments. */
#ifndef RVMC_REDUCTIONS
#define RVMC_FOLDING(name, arguments, ...) \
    int rvmc_##name(__VA_ARGS__, rvmc_fold *fold) __asm__("MPI_" #name); \
    static int MPI_##name(__VA_ARGS__) RVMC_RENAMED(name); \
    RVMC_INLINE int MPI_##name(__VA_ARGS__) \
    { \
        return rvmc_##name arguments; \
    }
#define RVMC_BOTH_FOLDING(doesnt_wait, persistent, arguments, arguments_of_init, ...) \
    RVMC_FOLDING(doesnt_wait, arguments, __VA_ARGS__, MPI_Request *request) \
    RVMC_FOLDING(persistent, arguments_of_init, __VA_ARGS__, MPI_Info info, MPI_Request *request)

RVMC_BOTH_FOLDING(Ireduce, Reduce_init, (from, to, count, type, op, root, c, request, RVMC_FOLD(type)),
                  (from, to, count, type, op, root, c, info, request, RVMC_FOLD(type)), const void *from, void *to, int count,
                  MPI_Datatype type, MPI_Op op, int root, MPI_Comm c)
RVMC_BOTH_FOLDING(Iallreduce, Allreduce_init, (from, to, count, type, op, c, request, RVMC_FOLD(type)),
                  (from, to, count, type, op, c, info, request, RVMC_FOLD(type)), const void *from, void *to, int count,
                  MPI_Datatype type, MPI_Op op, MPI_Comm c)
RVMC_BOTH_FOLDING(Ireduce_scatter, Reduce_scatter_init, (from, to, counts, type, op, c, request, RVMC_FOLD(type)),
                  (from, to, counts, type, op, c, info, request, RVMC_FOLD(type)), const void *from, void *to,
                  const int counts[], MPI_Datatype type, MPI_Op op, MPI_Comm c)
RVMC_BOTH_FOLDING(Ireduce_scatter_block, Reduce_scatter_block_init, (from, to, count, type, op, c, request, RVMC_FOLD(type)),
                  (from, to, count, type, op, c, info, request, RVMC_FOLD(type)), const void *from, void *to, int count,
                  MPI_Datatype type, MPI_Op op, MPI_Comm c)
RVMC_BOTH_FOLDING(Iscan, Scan_init, (from, to, count, type, op, c, request, RVMC_FOLD(type)),
                  (from, to, count, type, op, c, info, request, RVMC_FOLD(type)), const void *from, void *to, int count,
                  MPI_Datatype type, MPI_Op op, MPI_Comm c)
RVMC_BOTH_FOLDING(Iexscan, Exscan_init, (from, to, count, type, op, c, request, RVMC_FOLD(type)),
                  (from, to, count, type, op, c, info, request, RVMC_FOLD(type)), const void *from, void *to, int count,
                  MPI_Datatype type, MPI_Op op, MPI_Comm c)
#endif

/* Requests of which the program says when they are complete (13.2). */
int MPI_Grequest_start(MPI_Grequest_query_function *query, MPI_Grequest_free_function *free_it,
                       MPI_Grequest_cancel_function *cancel, void *state, MPI_Request *request);
int MPI_Grequest_complete(MPI_Request request);

/* The datatype of a kind of Fortran's numbers (19.1.5). */
int MPI_Type_match_size(int type_class, int size, MPI_Datatype *type);

#endif
