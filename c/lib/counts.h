/* counts.h: calls whose counts are MPI_Count (MPI 4.1, 2.5.8). A count that an int doesn't hold is refused, for no rank has
   memory for so many elements. What else there is to a call is that of its name without _c. */
#ifndef RVMC_COUNTS_H
#define RVMC_COUNTS_H

/* 0, or the error of a count or a place that is too large. */
RVMC_INLINE int rvmc_wide(const char *call, int of, MPI_Count count, MPI_Comm c)
{
    return rvmc_code(call, (int)count == count ? RVMC_OK : RVMC_BAD_COUNT, of, 0, count, MPI_BYTE, 0, 0, c);
}

/* --- two ranks --- */

#define RVMC_SENDING(name) \
    RVMC_INLINE int MPI_##name##_c(const void *buffer, MPI_Count count, MPI_Datatype type, int dest, int tag, MPI_Comm c) \
    { \
        int error = rvmc_wide("MPI_" #name "_c", 0, count, c); \
 \
        return error ? error : MPI_##name(buffer, (int)count, type, dest, tag, c); \
    }
RVMC_SENDING(Send)
RVMC_SENDING(Bsend)
RVMC_SENDING(Ssend)
RVMC_SENDING(Rsend)

#define RVMC_WITH_REQUEST(name, constant, peer) \
    RVMC_INLINE int MPI_##name##_c(constant void *buffer, MPI_Count count, MPI_Datatype type, int peer, int tag, MPI_Comm c, \
                                   MPI_Request *request) \
    { \
        int error = rvmc_wide("MPI_" #name "_c", 0, count, c); \
 \
        return error ? error : MPI_##name(buffer, (int)count, type, peer, tag, c, request); \
    }
RVMC_WITH_REQUEST(Isend, const, dest)
RVMC_WITH_REQUEST(Ibsend, const, dest)
RVMC_WITH_REQUEST(Issend, const, dest)
RVMC_WITH_REQUEST(Irsend, const, dest)
RVMC_WITH_REQUEST(Send_init, const, dest)
RVMC_WITH_REQUEST(Bsend_init, const, dest)
RVMC_WITH_REQUEST(Ssend_init, const, dest)
RVMC_WITH_REQUEST(Rsend_init, const, dest)
RVMC_WITH_REQUEST(Irecv, , source)
RVMC_WITH_REQUEST(Recv_init, , source)

RVMC_INLINE int MPI_Recv_c(void *buffer, MPI_Count count, MPI_Datatype type, int source, int tag, MPI_Comm c,
                           MPI_Status *status)
{
    int error = rvmc_wide("MPI_Recv_c", 0, count, c);

    return error ? error : MPI_Recv(buffer, (int)count, type, source, tag, c, status);
}
RVMC_INLINE int MPI_Sendrecv_c(const void *out, MPI_Count out_count, MPI_Datatype out_type, int dest, int out_tag, void *in,
                               MPI_Count in_count, MPI_Datatype in_type, int source, int in_tag, MPI_Comm c, MPI_Status *status)
{
    int error = rvmc_wide("MPI_Sendrecv_c", RVMC_OUT, out_count, c);

    error = error ? error : rvmc_wide("MPI_Sendrecv_c", RVMC_IN, in_count, c);
    return error ? error : MPI_Sendrecv(out, (int)out_count, out_type, dest, out_tag, in, (int)in_count, in_type, source, in_tag,
                                        c, status);
}
RVMC_INLINE int MPI_Sendrecv_replace_c(void *buffer, MPI_Count count, MPI_Datatype type, int dest, int out_tag, int source,
                                       int in_tag, MPI_Comm c, MPI_Status *status)
{
    int error = rvmc_wide("MPI_Sendrecv_replace_c", 0, count, c);

    return error ? error : MPI_Sendrecv_replace(buffer, (int)count, type, dest, out_tag, source, in_tag, c, status);
}

/* --- all ranks --- */

RVMC_INLINE int MPI_Bcast_c(void *buffer, MPI_Count count, MPI_Datatype type, int root, MPI_Comm c)
{
    int error = rvmc_wide("MPI_Bcast_c", 0, count, c);

    return error ? error : MPI_Bcast(buffer, (int)count, type, root, c);
}

#define RVMC_TO_ROOT(name) \
    RVMC_INLINE int MPI_##name##_c(const void *out, MPI_Count out_count, MPI_Datatype out_type, void *in, MPI_Count in_count, \
                                   MPI_Datatype in_type, int root, MPI_Comm c) \
    { \
        int error = rvmc_wide("MPI_" #name "_c", RVMC_OUT, out_count, c); \
 \
        error = error ? error : rvmc_wide("MPI_" #name "_c", RVMC_IN, in_count, c); \
        return error ? error : MPI_##name(out, (int)out_count, out_type, in, (int)in_count, in_type, root, c); \
    }
RVMC_TO_ROOT(Gather)
RVMC_TO_ROOT(Scatter)

#define RVMC_TO_ALL(name) \
    RVMC_INLINE int MPI_##name##_c(const void *out, MPI_Count out_count, MPI_Datatype out_type, void *in, MPI_Count in_count, \
                                   MPI_Datatype in_type, MPI_Comm c) \
    { \
        int error = rvmc_wide("MPI_" #name "_c", RVMC_OUT, out_count, c); \
 \
        error = error ? error : rvmc_wide("MPI_" #name "_c", RVMC_IN, in_count, c); \
        return error ? error : MPI_##name(out, (int)out_count, out_type, in, (int)in_count, in_type, c); \
    }
RVMC_TO_ALL(Allgather)
RVMC_TO_ALL(Alltoall)

/* The files of the library that fold declare these otherwise (declared.h). */
#ifndef RVMC_REDUCTIONS
RVMC_INLINE int MPI_Reduce_c(const void *from, void *to, MPI_Count count, MPI_Datatype type, MPI_Op op, int root, MPI_Comm c)
{
    int error = rvmc_wide("MPI_Reduce_c", 0, count, c);

    return error ? error : MPI_Reduce(from, to, (int)count, type, op, root, c);
}

#define RVMC_FOLDING_ALL(name) \
    RVMC_INLINE int MPI_##name##_c(const void *from, void *to, MPI_Count count, MPI_Datatype type, MPI_Op op, MPI_Comm c) \
    { \
        int error = rvmc_wide("MPI_" #name "_c", 0, count, c); \
 \
        return error ? error : MPI_##name(from, to, (int)count, type, op, c); \
    }
RVMC_FOLDING_ALL(Allreduce)
RVMC_FOLDING_ALL(Reduce_scatter_block)
RVMC_FOLDING_ALL(Scan)
RVMC_FOLDING_ALL(Exscan)
#endif

/* --- a count and a place for each rank --- */

enum { RVMC_MOST_PARTS = 8 };                     /* the ranks that a cluster has at most */
struct rvmc_parts {
    int counts[RVMC_MOST_PARTS], places[RVMC_MOST_PARTS];
};
RVMC_INLINE int rvmc_narrow(struct rvmc_parts *to, const char *call, int of, const MPI_Count *counts, const MPI_Aint *places,
                            MPI_Comm c)
{
    int size = 0, error = rvmc_comm_code(call, rvmc_asked_of(RVMC_SIZE, c, &size), c);

    for (int i = 0; i < size && i < RVMC_MOST_PARTS && !error; i++) {
        error = rvmc_wide(call, of, counts[i], c);
        error = error ? error : rvmc_wide(call, of, places[i], c);
        to->counts[i] = (int)counts[i];
        to->places[i] = (int)places[i];
    }
    return error;
}
RVMC_INLINE int MPI_Alltoallv_c(const void *out, const MPI_Count out_counts[], const MPI_Aint out_places[],
                                MPI_Datatype out_type, void *in, const MPI_Count in_counts[], const MPI_Aint in_places[],
                                MPI_Datatype in_type, MPI_Comm c)
{
    struct rvmc_parts sent, got;
    int error = out == MPI_IN_PLACE ? MPI_SUCCESS : rvmc_narrow(&sent, "MPI_Alltoallv_c", RVMC_OUT, out_counts, out_places, c);

    error = error ? error : rvmc_narrow(&got, "MPI_Alltoallv_c", RVMC_IN, in_counts, in_places, c);
    return error ? error : MPI_Alltoallv(out, sent.counts, sent.places, out_type, in, got.counts, got.places, in_type, c);
}
RVMC_INLINE int MPI_Allgatherv_c(const void *out, MPI_Count out_count, MPI_Datatype out_type, void *in,
                                 const MPI_Count in_counts[], const MPI_Aint places[], MPI_Datatype in_type, MPI_Comm c)
{
    struct rvmc_parts got;
    int error = rvmc_wide("MPI_Allgatherv_c", RVMC_OUT, out_count, c);

    error = error ? error : rvmc_narrow(&got, "MPI_Allgatherv_c", RVMC_IN, in_counts, places, c);
    return error ? error : MPI_Allgatherv(out, (int)out_count, out_type, in, got.counts, got.places, in_type, c);
}

#endif
