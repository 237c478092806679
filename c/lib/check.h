/* check.h: what mpi.h has at its end under rvmc-cc --check. The program's calls go to functions of the library's files
   check_*.c, which look at the arguments and then make MPI's own call. Calls that mpi.h has inline keep MPI's name as their
   symbol; for the others that is the name of the library's function. */
#ifndef RVMC_CHECK_H
#define RVMC_CHECK_H

#define RVMC_CHECKED_INLINE(name) __typeof__(MPI_##name) rvmc_checked_##name __asm__("MPI_" #name);
#define RVMC_CHECKED(name) __typeof__(MPI_##name) rvmc_checked_##name;

RVMC_CHECKED_INLINE(Init) RVMC_CHECKED_INLINE(Init_thread) RVMC_CHECKED_INLINE(Finalize)
RVMC_CHECKED_INLINE(Send) RVMC_CHECKED_INLINE(Ssend) RVMC_CHECKED_INLINE(Bsend) RVMC_CHECKED_INLINE(Rsend)
RVMC_CHECKED_INLINE(Recv) RVMC_CHECKED_INLINE(Sendrecv) RVMC_CHECKED_INLINE(Sendrecv_replace)
RVMC_CHECKED_INLINE(Isend) RVMC_CHECKED_INLINE(Issend) RVMC_CHECKED_INLINE(Ibsend) RVMC_CHECKED_INLINE(Irsend)
RVMC_CHECKED_INLINE(Irecv) RVMC_CHECKED_INLINE(Isendrecv) RVMC_CHECKED_INLINE(Isendrecv_replace)
RVMC_CHECKED_INLINE(Probe) RVMC_CHECKED_INLINE(Iprobe) RVMC_CHECKED_INLINE(Mprobe) RVMC_CHECKED_INLINE(Improbe)
RVMC_CHECKED_INLINE(Mrecv) RVMC_CHECKED_INLINE(Imrecv)
RVMC_CHECKED_INLINE(Send_init) RVMC_CHECKED_INLINE(Ssend_init) RVMC_CHECKED_INLINE(Bsend_init)
RVMC_CHECKED_INLINE(Rsend_init) RVMC_CHECKED_INLINE(Recv_init) RVMC_CHECKED_INLINE(Start) RVMC_CHECKED_INLINE(Startall)
RVMC_CHECKED_INLINE(Wait) RVMC_CHECKED_INLINE(Test) RVMC_CHECKED_INLINE(Waitall) RVMC_CHECKED_INLINE(Request_free)
RVMC_CHECKED(Testall) RVMC_CHECKED(Waitany) RVMC_CHECKED(Testany) RVMC_CHECKED(Waitsome) RVMC_CHECKED(Testsome)
RVMC_CHECKED(Request_get_status) RVMC_CHECKED(Cancel)
RVMC_CHECKED_INLINE(Psend_init) RVMC_CHECKED_INLINE(Precv_init) RVMC_CHECKED_INLINE(Pready)
RVMC_CHECKED_INLINE(Pready_range) RVMC_CHECKED_INLINE(Pready_list) RVMC_CHECKED_INLINE(Parrived)

/* Before a collective a function looks at its memory; the call itself stays the program's, so that its line is. One that
   doesn't wait opens a record first, which gets the buffers that the function looks at; that of a persistent one keeps them
   for each start. */
void rvmc_check_later(const char *call, const MPI_Request *request);
void rvmc_check_lasting(const char *call, const MPI_Request *request);
void rvmc_check_later_opened(MPI_Request *request);
int rvmc_check_end(int code);
#define RVMC_ARGUMENTS(...) __VA_ARGS__
#define RVMC_CHECKED_ALL(name, later, lasting, arguments, ...) \
    void rvmc_check_##name(__VA_ARGS__); \
    RVMC_INLINE int rvmc_checked_##name(__VA_ARGS__) \
    { \
        rvmc_check_##name arguments; \
        return rvmc_check_end(MPI_##name arguments); \
    } \
    RVMC_INLINE int rvmc_checked_##later(__VA_ARGS__, MPI_Request *request) \
    { \
        int code; \
        \
        rvmc_check_later("MPI_" #later, request); \
        rvmc_check_##name arguments; \
        code = MPI_##later(RVMC_ARGUMENTS arguments, request); \
        rvmc_check_later_opened(request); \
        return rvmc_check_end(code); \
    } \
    RVMC_INLINE int rvmc_checked_##lasting(__VA_ARGS__, MPI_Info info, MPI_Request *request) \
    { \
        int code; \
        \
        rvmc_check_lasting("MPI_" #lasting, request); \
        rvmc_check_##name arguments; \
        code = MPI_##lasting(RVMC_ARGUMENTS arguments, info, request); \
        rvmc_check_later_opened(request); \
        return rvmc_check_end(code); \
    }

RVMC_CHECKED_ALL(Barrier, Ibarrier, Barrier_init, (c), MPI_Comm c)
RVMC_CHECKED_ALL(Bcast, Ibcast, Bcast_init, (buffer, count, type, root, c), void *buffer, int count, MPI_Datatype type, int
                 root, MPI_Comm c)
RVMC_CHECKED_ALL(Gather, Igather, Gather_init, (out, out_count, out_type, in, in_count, in_type, root, c), const void *out,
                 int out_count, MPI_Datatype out_type, void *in, int in_count, MPI_Datatype in_type, int root, MPI_Comm c)
RVMC_CHECKED_ALL(Gatherv, Igatherv, Gatherv_init, (out, out_count, out_type, in, in_counts, places, in_type, root, c), const
                 void *out, int out_count, MPI_Datatype out_type, void *in, const int in_counts[], const int places[],
                 MPI_Datatype in_type, int root, MPI_Comm c)
RVMC_CHECKED_ALL(Scatter, Iscatter, Scatter_init, (out, out_count, out_type, in, in_count, in_type, root, c), const void *out,
                 int out_count, MPI_Datatype out_type, void *in, int in_count, MPI_Datatype in_type, int root, MPI_Comm c)
RVMC_CHECKED_ALL(Scatterv, Iscatterv, Scatterv_init, (out, out_counts, places, out_type, in, in_count, in_type, root, c),
                 const void *out, const int out_counts[], const int places[], MPI_Datatype out_type, void *in, int in_count,
                 MPI_Datatype in_type, int root, MPI_Comm c)
RVMC_CHECKED_ALL(Allgather, Iallgather, Allgather_init, (out, out_count, out_type, in, in_count, in_type, c), const void *out,
                 int out_count, MPI_Datatype out_type, void *in, int in_count, MPI_Datatype in_type, MPI_Comm c)
RVMC_CHECKED_ALL(Allgatherv, Iallgatherv, Allgatherv_init, (out, out_count, out_type, in, in_counts, places, in_type, c),
                 const void *out, int out_count, MPI_Datatype out_type, void *in, const int in_counts[], const int places[],
                 MPI_Datatype in_type, MPI_Comm c)
RVMC_CHECKED_ALL(Alltoall, Ialltoall, Alltoall_init, (out, out_count, out_type, in, in_count, in_type, c), const void *out,
                 int out_count, MPI_Datatype out_type, void *in, int in_count, MPI_Datatype in_type, MPI_Comm c)
RVMC_CHECKED_ALL(Alltoallv, Ialltoallv, Alltoallv_init, (out, out_counts, out_places, out_type, in, in_counts, in_places,
                 in_type, c), const void *out, const int out_counts[], const int out_places[], MPI_Datatype out_type, void
                 *in, const int in_counts[], const int in_places[], MPI_Datatype in_type, MPI_Comm c)
RVMC_CHECKED_ALL(Alltoallw, Ialltoallw, Alltoallw_init, (out, out_counts, out_places, out_types, in, in_counts, in_places,
                 in_types, c), const void *out, const int out_counts[], const int out_places[], const MPI_Datatype
                 out_types[], void *in, const int in_counts[], const int in_places[], const MPI_Datatype in_types[], MPI_Comm
                 c)
RVMC_CHECKED_ALL(Neighbor_allgather, Ineighbor_allgather, Neighbor_allgather_init, (out, out_count, out_type, in, in_count,
                 in_type, c), const void *out, int out_count, MPI_Datatype out_type, void *in, int in_count, MPI_Datatype
                 in_type, MPI_Comm c)
RVMC_CHECKED_ALL(Neighbor_allgatherv, Ineighbor_allgatherv, Neighbor_allgatherv_init, (out, out_count, out_type, in, in_counts,
                 places, in_type, c), const void *out, int out_count, MPI_Datatype out_type, void *in, const int in_counts[],
                 const int places[], MPI_Datatype in_type, MPI_Comm c)
RVMC_CHECKED_ALL(Neighbor_alltoall, Ineighbor_alltoall, Neighbor_alltoall_init, (out, out_count, out_type, in, in_count,
                 in_type, c), const void *out, int out_count, MPI_Datatype out_type, void *in, int in_count, MPI_Datatype
                 in_type, MPI_Comm c)
RVMC_CHECKED_ALL(Neighbor_alltoallv, Ineighbor_alltoallv, Neighbor_alltoallv_init, (out, out_counts, out_places, out_type, in,
                 in_counts, in_places, in_type, c), const void *out, const int out_counts[], const int out_places[],
                 MPI_Datatype out_type, void *in, const int in_counts[], const int in_places[], MPI_Datatype in_type,
                 MPI_Comm c)
RVMC_CHECKED_ALL(Neighbor_alltoallw, Ineighbor_alltoallw, Neighbor_alltoallw_init, (out, out_counts, out_places, out_types, in,
                 in_counts, in_places, in_types, c), const void *out, const int out_counts[], const MPI_Aint out_places[],
                 const MPI_Datatype out_types[], void *in, const int in_counts[], const MPI_Aint in_places[],
                 const MPI_Datatype in_types[], MPI_Comm c)
#ifndef RVMC_REDUCTIONS
RVMC_CHECKED_ALL(Reduce, Ireduce, Reduce_init, (from, to, count, type, op, root, c), const void *from, void *to, int count,
                 MPI_Datatype type, MPI_Op op, int root, MPI_Comm c)
RVMC_CHECKED_ALL(Allreduce, Iallreduce, Allreduce_init, (from, to, count, type, op, c), const void *from, void *to, int count,
                 MPI_Datatype type, MPI_Op op, MPI_Comm c)
RVMC_CHECKED_ALL(Scan, Iscan, Scan_init, (from, to, count, type, op, c), const void *from, void *to, int count, MPI_Datatype
                 type, MPI_Op op, MPI_Comm c)
RVMC_CHECKED_ALL(Exscan, Iexscan, Exscan_init, (from, to, count, type, op, c), const void *from, void *to, int count,
                 MPI_Datatype type, MPI_Op op, MPI_Comm c)
RVMC_CHECKED_ALL(Reduce_scatter, Ireduce_scatter, Reduce_scatter_init, (from, to, counts, type, op, c), const void *from, void
                 *to, const int counts[], MPI_Datatype type, MPI_Op op, MPI_Comm c)
RVMC_CHECKED_ALL(Reduce_scatter_block, Ireduce_scatter_block, Reduce_scatter_block_init, (from, to, count, type, op, c), const
                 void *from, void *to, int count, MPI_Datatype type, MPI_Op op, MPI_Comm c)
#endif

/* What a program makes and has to free: the call, and the place of the handle. */
enum { RVMC_IS_COMMUNICATOR, RVMC_IS_DATATYPE, RVMC_IS_OPERATION, RVMC_IS_GROUP };
void rvmc_check_made(const char *call, int kind, int code, const int *handle);
void rvmc_check_freed(int kind, int handle);
#define RVMC_CHECKED_MAKER(name, kind, parameters, arguments) \
    RVMC_INLINE int rvmc_checked_##name parameters \
    { \
        int code = MPI_##name arguments; \
        \
        rvmc_check_made("MPI_" #name, kind, code, made); \
        return code; \
    }
#define RVMC_CHECKED_FREE(name, kind, type) \
    RVMC_INLINE int rvmc_checked_##name(type *freed) \
    { \
        rvmc_check_freed(kind, *freed); \
        return MPI_##name(freed); \
    }

RVMC_CHECKED_MAKER(Comm_dup, RVMC_IS_COMMUNICATOR, (MPI_Comm c, MPI_Comm *made), (c, made))
RVMC_CHECKED_MAKER(Comm_dup_with_info, RVMC_IS_COMMUNICATOR, (MPI_Comm c, MPI_Info info, MPI_Comm *made), (c, info, made))
RVMC_CHECKED_MAKER(Comm_create, RVMC_IS_COMMUNICATOR, (MPI_Comm c, MPI_Group group, MPI_Comm *made), (c, group, made))
RVMC_CHECKED_MAKER(Comm_create_group, RVMC_IS_COMMUNICATOR, (MPI_Comm c, MPI_Group group, int tag, MPI_Comm *made),
                   (c, group, tag, made))
RVMC_CHECKED_MAKER(Comm_split, RVMC_IS_COMMUNICATOR, (MPI_Comm c, int color, int key, MPI_Comm *made), (c, color, key, made))
RVMC_CHECKED_MAKER(Comm_split_type, RVMC_IS_COMMUNICATOR, (MPI_Comm c, int type, int key, MPI_Info info, MPI_Comm *made),
                   (c, type, key, info, made))
RVMC_CHECKED_MAKER(Cart_create, RVMC_IS_COMMUNICATOR, (MPI_Comm c, int dimensions, const int dims[], const int periods[],
                                                       int reorder, MPI_Comm *made),
                   (c, dimensions, dims, periods, reorder, made))
RVMC_CHECKED_MAKER(Cart_sub, RVMC_IS_COMMUNICATOR, (MPI_Comm c, const int remain[], MPI_Comm *made), (c, remain, made))
RVMC_CHECKED_MAKER(Graph_create, RVMC_IS_COMMUNICATOR, (MPI_Comm c, int count, const int index[], const int edges[],
                                                        int reorder, MPI_Comm *made),
                   (c, count, index, edges, reorder, made))
RVMC_CHECKED_FREE(Comm_free, RVMC_IS_COMMUNICATOR, MPI_Comm)
RVMC_CHECKED_FREE(Comm_disconnect, RVMC_IS_COMMUNICATOR, MPI_Comm)

RVMC_CHECKED_MAKER(Type_contiguous, RVMC_IS_DATATYPE, (int count, MPI_Datatype type, MPI_Datatype *made), (count, type, made))
RVMC_CHECKED_MAKER(Type_vector, RVMC_IS_DATATYPE, (int count, int length, int stride, MPI_Datatype type, MPI_Datatype *made),
                   (count, length, stride, type, made))
RVMC_CHECKED_MAKER(Type_create_hvector, RVMC_IS_DATATYPE, (int count, int length, MPI_Aint stride, MPI_Datatype type,
                                                           MPI_Datatype *made),
                   (count, length, stride, type, made))
RVMC_CHECKED_MAKER(Type_indexed, RVMC_IS_DATATYPE, (int count, const int lengths[], const int places[], MPI_Datatype type,
                                                    MPI_Datatype *made),
                   (count, lengths, places, type, made))
RVMC_CHECKED_MAKER(Type_create_hindexed, RVMC_IS_DATATYPE, (int count, const int lengths[], const MPI_Aint places[],
                                                            MPI_Datatype type, MPI_Datatype *made),
                   (count, lengths, places, type, made))
RVMC_CHECKED_MAKER(Type_create_indexed_block, RVMC_IS_DATATYPE, (int count, int length, const int places[], MPI_Datatype type,
                                                                 MPI_Datatype *made),
                   (count, length, places, type, made))
RVMC_CHECKED_MAKER(Type_create_struct, RVMC_IS_DATATYPE, (int count, const int lengths[], const MPI_Aint places[],
                                                          const MPI_Datatype types[], MPI_Datatype *made),
                   (count, lengths, places, types, made))
RVMC_CHECKED_MAKER(Type_create_subarray, RVMC_IS_DATATYPE, (int dimensions, const int sizes[], const int subsizes[],
                                                            const int starts[], int order, MPI_Datatype type,
                                                            MPI_Datatype *made),
                   (dimensions, sizes, subsizes, starts, order, type, made))
RVMC_CHECKED_MAKER(Type_create_resized, RVMC_IS_DATATYPE, (MPI_Datatype type, MPI_Aint low, MPI_Aint extent,
                                                           MPI_Datatype *made),
                   (type, low, extent, made))
RVMC_CHECKED_MAKER(Type_dup, RVMC_IS_DATATYPE, (MPI_Datatype type, MPI_Datatype *made), (type, made))
RVMC_CHECKED_FREE(Type_free, RVMC_IS_DATATYPE, MPI_Datatype)

RVMC_CHECKED_MAKER(Op_create, RVMC_IS_OPERATION, (MPI_User_function *function, int commutes, MPI_Op *made),
                   (function, commutes, made))
RVMC_CHECKED_FREE(Op_free, RVMC_IS_OPERATION, MPI_Op)

#define RVMC_CHECKED_GROUP(name, parameters, arguments) RVMC_CHECKED_MAKER(name, RVMC_IS_GROUP, parameters, arguments)
RVMC_CHECKED_GROUP(Comm_group, (MPI_Comm c, MPI_Group *made), (c, made))
RVMC_CHECKED_GROUP(Group_union, (MPI_Group group, MPI_Group other, MPI_Group *made), (group, other, made))
RVMC_CHECKED_GROUP(Group_intersection, (MPI_Group group, MPI_Group other, MPI_Group *made), (group, other, made))
RVMC_CHECKED_GROUP(Group_difference, (MPI_Group group, MPI_Group other, MPI_Group *made), (group, other, made))
RVMC_CHECKED_GROUP(Group_incl, (MPI_Group group, int count, const int ranks[], MPI_Group *made), (group, count, ranks, made))
RVMC_CHECKED_GROUP(Group_excl, (MPI_Group group, int count, const int ranks[], MPI_Group *made), (group, count, ranks, made))
RVMC_CHECKED_GROUP(Group_range_incl, (MPI_Group group, int count, int ranges[][3], MPI_Group *made),
                   (group, count, ranges, made))
RVMC_CHECKED_GROUP(Group_range_excl, (MPI_Group group, int count, int ranges[][3], MPI_Group *made),
                   (group, count, ranges, made))
RVMC_CHECKED_FREE(Group_free, RVMC_IS_GROUP, MPI_Group)

#ifdef RVMC_CHECK
#define MPI_Init rvmc_checked_Init
#define MPI_Init_thread rvmc_checked_Init_thread
#define MPI_Finalize rvmc_checked_Finalize
#define MPI_Send rvmc_checked_Send
#define MPI_Ssend rvmc_checked_Ssend
#define MPI_Bsend rvmc_checked_Bsend
#define MPI_Rsend rvmc_checked_Rsend
#define MPI_Recv rvmc_checked_Recv
#define MPI_Sendrecv rvmc_checked_Sendrecv
#define MPI_Sendrecv_replace rvmc_checked_Sendrecv_replace
#define MPI_Isend rvmc_checked_Isend
#define MPI_Issend rvmc_checked_Issend
#define MPI_Ibsend rvmc_checked_Ibsend
#define MPI_Irsend rvmc_checked_Irsend
#define MPI_Irecv rvmc_checked_Irecv
#define MPI_Isendrecv rvmc_checked_Isendrecv
#define MPI_Isendrecv_replace rvmc_checked_Isendrecv_replace
#define MPI_Probe rvmc_checked_Probe
#define MPI_Iprobe rvmc_checked_Iprobe
#define MPI_Mprobe rvmc_checked_Mprobe
#define MPI_Improbe rvmc_checked_Improbe
#define MPI_Mrecv rvmc_checked_Mrecv
#define MPI_Imrecv rvmc_checked_Imrecv
#define MPI_Send_init rvmc_checked_Send_init
#define MPI_Ssend_init rvmc_checked_Ssend_init
#define MPI_Bsend_init rvmc_checked_Bsend_init
#define MPI_Rsend_init rvmc_checked_Rsend_init
#define MPI_Recv_init rvmc_checked_Recv_init
#define MPI_Start rvmc_checked_Start
#define MPI_Startall rvmc_checked_Startall
#define MPI_Wait rvmc_checked_Wait
#define MPI_Test rvmc_checked_Test
#define MPI_Waitall rvmc_checked_Waitall
#define MPI_Testall rvmc_checked_Testall
#define MPI_Waitany rvmc_checked_Waitany
#define MPI_Testany rvmc_checked_Testany
#define MPI_Waitsome rvmc_checked_Waitsome
#define MPI_Testsome rvmc_checked_Testsome
#define MPI_Request_free rvmc_checked_Request_free
#define MPI_Request_get_status rvmc_checked_Request_get_status
#define MPI_Cancel rvmc_checked_Cancel
#define MPI_Barrier rvmc_checked_Barrier
#define MPI_Bcast rvmc_checked_Bcast
#define MPI_Gather rvmc_checked_Gather
#define MPI_Gatherv rvmc_checked_Gatherv
#define MPI_Scatter rvmc_checked_Scatter
#define MPI_Scatterv rvmc_checked_Scatterv
#define MPI_Allgather rvmc_checked_Allgather
#define MPI_Allgatherv rvmc_checked_Allgatherv
#define MPI_Alltoall rvmc_checked_Alltoall
#define MPI_Alltoallv rvmc_checked_Alltoallv
#define MPI_Alltoallw rvmc_checked_Alltoallw
#define MPI_Reduce rvmc_checked_Reduce
#define MPI_Allreduce rvmc_checked_Allreduce
#define MPI_Scan rvmc_checked_Scan
#define MPI_Exscan rvmc_checked_Exscan
#define MPI_Reduce_scatter rvmc_checked_Reduce_scatter
#define MPI_Reduce_scatter_block rvmc_checked_Reduce_scatter_block
#define MPI_Ibarrier rvmc_checked_Ibarrier
#define MPI_Ibcast rvmc_checked_Ibcast
#define MPI_Igather rvmc_checked_Igather
#define MPI_Igatherv rvmc_checked_Igatherv
#define MPI_Iscatter rvmc_checked_Iscatter
#define MPI_Iscatterv rvmc_checked_Iscatterv
#define MPI_Iallgather rvmc_checked_Iallgather
#define MPI_Iallgatherv rvmc_checked_Iallgatherv
#define MPI_Ialltoall rvmc_checked_Ialltoall
#define MPI_Ialltoallv rvmc_checked_Ialltoallv
#define MPI_Ialltoallw rvmc_checked_Ialltoallw
#define MPI_Ireduce rvmc_checked_Ireduce
#define MPI_Iallreduce rvmc_checked_Iallreduce
#define MPI_Iscan rvmc_checked_Iscan
#define MPI_Iexscan rvmc_checked_Iexscan
#define MPI_Ireduce_scatter rvmc_checked_Ireduce_scatter
#define MPI_Ireduce_scatter_block rvmc_checked_Ireduce_scatter_block
#define MPI_Barrier_init rvmc_checked_Barrier_init
#define MPI_Bcast_init rvmc_checked_Bcast_init
#define MPI_Gather_init rvmc_checked_Gather_init
#define MPI_Gatherv_init rvmc_checked_Gatherv_init
#define MPI_Scatter_init rvmc_checked_Scatter_init
#define MPI_Scatterv_init rvmc_checked_Scatterv_init
#define MPI_Allgather_init rvmc_checked_Allgather_init
#define MPI_Allgatherv_init rvmc_checked_Allgatherv_init
#define MPI_Alltoall_init rvmc_checked_Alltoall_init
#define MPI_Alltoallv_init rvmc_checked_Alltoallv_init
#define MPI_Alltoallw_init rvmc_checked_Alltoallw_init
#define MPI_Reduce_init rvmc_checked_Reduce_init
#define MPI_Allreduce_init rvmc_checked_Allreduce_init
#define MPI_Scan_init rvmc_checked_Scan_init
#define MPI_Exscan_init rvmc_checked_Exscan_init
#define MPI_Reduce_scatter_init rvmc_checked_Reduce_scatter_init
#define MPI_Reduce_scatter_block_init rvmc_checked_Reduce_scatter_block_init
#define MPI_Neighbor_allgather rvmc_checked_Neighbor_allgather
#define MPI_Neighbor_allgatherv rvmc_checked_Neighbor_allgatherv
#define MPI_Neighbor_alltoall rvmc_checked_Neighbor_alltoall
#define MPI_Neighbor_alltoallv rvmc_checked_Neighbor_alltoallv
#define MPI_Neighbor_alltoallw rvmc_checked_Neighbor_alltoallw
#define MPI_Ineighbor_allgather rvmc_checked_Ineighbor_allgather
#define MPI_Ineighbor_allgatherv rvmc_checked_Ineighbor_allgatherv
#define MPI_Ineighbor_alltoall rvmc_checked_Ineighbor_alltoall
#define MPI_Ineighbor_alltoallv rvmc_checked_Ineighbor_alltoallv
#define MPI_Ineighbor_alltoallw rvmc_checked_Ineighbor_alltoallw
#define MPI_Neighbor_allgather_init rvmc_checked_Neighbor_allgather_init
#define MPI_Neighbor_allgatherv_init rvmc_checked_Neighbor_allgatherv_init
#define MPI_Neighbor_alltoall_init rvmc_checked_Neighbor_alltoall_init
#define MPI_Neighbor_alltoallv_init rvmc_checked_Neighbor_alltoallv_init
#define MPI_Neighbor_alltoallw_init rvmc_checked_Neighbor_alltoallw_init
#define MPI_Psend_init rvmc_checked_Psend_init
#define MPI_Precv_init rvmc_checked_Precv_init
#define MPI_Pready rvmc_checked_Pready
#define MPI_Pready_range rvmc_checked_Pready_range
#define MPI_Pready_list rvmc_checked_Pready_list
#define MPI_Parrived rvmc_checked_Parrived
#define MPI_Comm_dup rvmc_checked_Comm_dup
#define MPI_Comm_dup_with_info rvmc_checked_Comm_dup_with_info
#define MPI_Comm_create rvmc_checked_Comm_create
#define MPI_Comm_create_group rvmc_checked_Comm_create_group
#define MPI_Comm_split rvmc_checked_Comm_split
#define MPI_Comm_split_type rvmc_checked_Comm_split_type
#define MPI_Cart_create rvmc_checked_Cart_create
#define MPI_Cart_sub rvmc_checked_Cart_sub
#define MPI_Graph_create rvmc_checked_Graph_create
#define MPI_Comm_free rvmc_checked_Comm_free
#define MPI_Comm_disconnect rvmc_checked_Comm_disconnect
#define MPI_Type_contiguous rvmc_checked_Type_contiguous
#define MPI_Type_vector rvmc_checked_Type_vector
#define MPI_Type_create_hvector rvmc_checked_Type_create_hvector
#define MPI_Type_indexed rvmc_checked_Type_indexed
#define MPI_Type_create_hindexed rvmc_checked_Type_create_hindexed
#define MPI_Type_create_indexed_block rvmc_checked_Type_create_indexed_block
#define MPI_Type_create_struct rvmc_checked_Type_create_struct
#define MPI_Type_create_subarray rvmc_checked_Type_create_subarray
#define MPI_Type_create_resized rvmc_checked_Type_create_resized
#define MPI_Type_dup rvmc_checked_Type_dup
#define MPI_Type_free rvmc_checked_Type_free
#define MPI_Op_create rvmc_checked_Op_create
#define MPI_Op_free rvmc_checked_Op_free
#define MPI_Comm_group rvmc_checked_Comm_group
#define MPI_Group_union rvmc_checked_Group_union
#define MPI_Group_intersection rvmc_checked_Group_intersection
#define MPI_Group_difference rvmc_checked_Group_difference
#define MPI_Group_incl rvmc_checked_Group_incl
#define MPI_Group_excl rvmc_checked_Group_excl
#define MPI_Group_range_incl rvmc_checked_Group_range_incl
#define MPI_Group_range_excl rvmc_checked_Group_range_excl
#define MPI_Group_free rvmc_checked_Group_free
#endif

#endif
