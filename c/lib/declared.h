/* declared.h: the calls of MPI that are functions of the library, and reductions and modes, of which a part is inline. */
#ifndef RVMC_DECLARED_H
#define RVMC_DECLARED_H

/* --- the environment, errors, attributes, info (chapters 7 to 10) --- */

double MPI_Wtime(void);
double MPI_Wtick(void);
int MPI_Abort(MPI_Comm c, int code) __attribute__((noreturn));
int MPI_Get_processor_name(char *name, int *length);
int MPI_Get_library_version(char *version, int *length);
int MPI_Alloc_mem(MPI_Aint size, MPI_Info info, void *place);
int MPI_Free_mem(void *place);
int MPI_Get_address(const void *place, MPI_Aint *address);
int MPI_Address(void *place, MPI_Aint *address);
MPI_Aint MPI_Aint_add(MPI_Aint base, MPI_Aint offset);
MPI_Aint MPI_Aint_diff(MPI_Aint to, MPI_Aint from);

int MPI_Error_class(int code, int *error_class);
int MPI_Error_string(int code, char *text, int *length);
int MPI_Add_error_class(int *error_class);
int MPI_Add_error_code(int error_class, int *code);
int MPI_Add_error_string(int code, const char *text);
int MPI_Comm_create_errhandler(MPI_Comm_errhandler_function *function, MPI_Errhandler *handler);
int MPI_Comm_set_errhandler(MPI_Comm c, MPI_Errhandler handler);
int MPI_Comm_get_errhandler(MPI_Comm c, MPI_Errhandler *handler);
int MPI_Comm_call_errhandler(MPI_Comm c, int code);
int MPI_Errhandler_free(MPI_Errhandler *handler);
int MPI_Errhandler_create(MPI_Comm_errhandler_function *function, MPI_Errhandler *handler);
int MPI_Errhandler_set(MPI_Comm c, MPI_Errhandler handler);
int MPI_Errhandler_get(MPI_Comm c, MPI_Errhandler *handler);

int rvmc_dup_attribute(int object, int key, void *extra, void *value, void *copy, int *flag);
int MPI_Comm_create_keyval(MPI_Comm_copy_attr_function *copy, MPI_Comm_delete_attr_function *gone, int *key, void *extra);
int MPI_Comm_free_keyval(int *key);
int MPI_Comm_set_attr(MPI_Comm c, int key, void *value);
int MPI_Comm_get_attr(MPI_Comm c, int key, void *value, int *flag);
int MPI_Comm_delete_attr(MPI_Comm c, int key);
int MPI_Keyval_create(MPI_Copy_function *copy, MPI_Delete_function *gone, int *key, void *extra);
int MPI_Keyval_free(int *key);
int MPI_Attr_put(MPI_Comm c, int key, void *value);
int MPI_Attr_get(MPI_Comm c, int key, void *value, int *flag);
int MPI_Attr_delete(MPI_Comm c, int key);
int MPI_Type_create_keyval(MPI_Type_copy_attr_function *copy, MPI_Type_delete_attr_function *gone, int *key, void *extra);
int MPI_Type_free_keyval(int *key);
int MPI_Type_set_attr(MPI_Datatype type, int key, void *value);
int MPI_Type_get_attr(MPI_Datatype type, int key, void *value, int *flag);
int MPI_Type_delete_attr(MPI_Datatype type, int key);
int MPI_Comm_set_name(MPI_Comm c, const char *name);
int MPI_Comm_get_name(MPI_Comm c, char *name, int *length);
int MPI_Type_set_name(MPI_Datatype type, const char *name);
int MPI_Type_get_name(MPI_Datatype type, char *name, int *length);

int MPI_Info_create(MPI_Info *info);
int MPI_Info_create_env(int argc, char **argv, MPI_Info *info);
int MPI_Info_dup(MPI_Info info, MPI_Info *copy);
int MPI_Info_free(MPI_Info *info);
int MPI_Info_set(MPI_Info info, const char *key, const char *value);
int MPI_Info_delete(MPI_Info info, const char *key);
int MPI_Info_get(MPI_Info info, const char *key, int length, char *value, int *flag);
int MPI_Info_get_string(MPI_Info info, const char *key, int *room, char *value, int *flag);
int MPI_Info_get_valuelen(MPI_Info info, const char *key, int *length, int *flag);
int MPI_Info_get_nkeys(MPI_Info info, int *count);
int MPI_Info_get_nthkey(MPI_Info info, int n, char *key);
int MPI_Comm_set_info(MPI_Comm c, MPI_Info info);
int MPI_Comm_get_info(MPI_Comm c, MPI_Info *info);

/* --- datatypes (5.1, 5.2) --- */

int MPI_Type_contiguous(int count, MPI_Datatype type, MPI_Datatype *made);
int MPI_Type_vector(int count, int length, int stride, MPI_Datatype type, MPI_Datatype *made);
int MPI_Type_create_hvector(int count, int length, MPI_Aint stride, MPI_Datatype type, MPI_Datatype *made);
int MPI_Type_indexed(int count, const int lengths[], const int places[], MPI_Datatype type, MPI_Datatype *made);
int MPI_Type_create_hindexed(int count, const int lengths[], const MPI_Aint places[], MPI_Datatype type,
                             MPI_Datatype *made);
int MPI_Type_create_indexed_block(int count, int length, const int places[], MPI_Datatype type, MPI_Datatype *made);
int MPI_Type_create_hindexed_block(int count, int length, const MPI_Aint places[], MPI_Datatype type, MPI_Datatype *made);
int MPI_Type_create_struct(int count, const int lengths[], const MPI_Aint places[], const MPI_Datatype types[],
                           MPI_Datatype *made);
int MPI_Type_create_subarray(int dimensions, const int sizes[], const int subsizes[], const int starts[], int order,
                             MPI_Datatype type, MPI_Datatype *made);
int MPI_Type_create_darray(int size, int rank, int dimensions, const int sizes[], const int distributions[],
                           const int arguments[], const int processes[], int order, MPI_Datatype type, MPI_Datatype *made);
int MPI_Type_create_resized(MPI_Datatype type, MPI_Aint low, MPI_Aint extent, MPI_Datatype *made);
int MPI_Type_dup(MPI_Datatype type, MPI_Datatype *made);
int MPI_Type_commit(MPI_Datatype *type);
int MPI_Type_free(MPI_Datatype *type);
int MPI_Type_get_envelope(MPI_Datatype type, int *integers, int *addresses, int *types, int *combiner);
int MPI_Type_get_contents(MPI_Datatype type, int integers, int addresses, int types, int integer[], MPI_Aint address[],
                          MPI_Datatype types_given[]);
int MPI_Type_hvector(int count, int length, MPI_Aint stride, MPI_Datatype type, MPI_Datatype *made);
int MPI_Type_hindexed(int count, int lengths[], MPI_Aint places[], MPI_Datatype type, MPI_Datatype *made);
int MPI_Type_struct(int count, int lengths[], MPI_Aint places[], MPI_Datatype types[], MPI_Datatype *made);
int MPI_Pack(const void *from, int count, MPI_Datatype type, void *packed, int size, int *position, MPI_Comm c);
int MPI_Unpack(const void *packed, int size, int *position, void *to, int count, MPI_Datatype type, MPI_Comm c);
int MPI_Pack_size(int count, MPI_Datatype type, MPI_Comm c, int *size);
int MPI_Pack_external(const char form[], const void *from, int count, MPI_Datatype type, void *packed, MPI_Aint size,
                      MPI_Aint *position);
int MPI_Unpack_external(const char form[], const void *packed, MPI_Aint size, MPI_Aint *position, void *to, int count,
                        MPI_Datatype type);
int MPI_Pack_external_size(const char form[], int count, MPI_Datatype type, MPI_Aint *size);

int MPI_Type_size(MPI_Datatype type, int *size);
int MPI_Type_size_x(MPI_Datatype type, MPI_Count *size);
int MPI_Type_extent(MPI_Datatype type, MPI_Aint *extent);
int MPI_Type_lb(MPI_Datatype type, MPI_Aint *low);
int MPI_Type_ub(MPI_Datatype type, MPI_Aint *high);
int MPI_Type_get_extent(MPI_Datatype type, MPI_Aint *low, MPI_Aint *extent);
int MPI_Type_get_extent_x(MPI_Datatype type, MPI_Count *low, MPI_Count *extent);
int MPI_Type_get_true_extent(MPI_Datatype type, MPI_Aint *low, MPI_Aint *extent);
int MPI_Type_get_true_extent_x(MPI_Datatype type, MPI_Count *low, MPI_Count *extent);
int MPI_Get_count(const MPI_Status *status, MPI_Datatype type, int *count);
int MPI_Get_elements(const MPI_Status *status, MPI_Datatype type, int *count);
int MPI_Get_elements_x(const MPI_Status *status, MPI_Datatype type, MPI_Count *count);
int MPI_Status_set_elements(MPI_Status *status, MPI_Datatype type, int count);
int MPI_Status_set_elements_x(MPI_Status *status, MPI_Datatype type, MPI_Count count);
int MPI_Status_set_cancelled(MPI_Status *status, int flag);

/* --- requests and modes (3.4, 3.6, 3.7, 3.8.4) --- */

int MPI_Testall(int count, MPI_Request requests[], int *flag, MPI_Status statuses[]);
int MPI_Waitany(int count, MPI_Request requests[], int *index, MPI_Status *status);
int MPI_Testany(int count, MPI_Request requests[], int *index, int *flag, MPI_Status *status);
int MPI_Waitsome(int count, MPI_Request requests[], int *done, int indices[], MPI_Status statuses[]);
int MPI_Testsome(int count, MPI_Request requests[], int *done, int indices[], MPI_Status statuses[]);
int MPI_Request_get_status(MPI_Request request, int *flag, MPI_Status *status);
int MPI_Cancel(MPI_Request *request);
int MPI_Test_cancelled(const MPI_Status *status, int *flag);
int MPI_Buffer_attach(void *buffer, int size);
int MPI_Buffer_detach(void *buffer, int *size);

enum { RVMC_SYNCHRONOUS, RVMC_BUFFERED, RVMC_READY, RVMC_STANDARD };
extern long rvmc_buffer_size;
long rvmc_own_init(int mode, const void *buffer, long size, int dest, int tag, MPI_Comm c, MPI_Request *request);
void rvmc_own_init_type(MPI_Request request, const void *buffer, long size, int count, MPI_Datatype type);

/* A buffered send waits for nobody, as no send of the machine does. Its buffer has to have room for it none the less. */
RVMC_INLINE long rvmc_buffered(const void *buffer, long size, int dest, int tag, MPI_Comm c)
{
    rvmc_answer a;

    if (size + MPI_BSEND_OVERHEAD > rvmc_buffer_size && dest != MPI_PROC_NULL && size >= 0)
        return rvmc_idle() ? RVMC_NOT_BEGUN : RVMC_NO_BUFFER;
    a = rvmc_send(RVMC_ISEND, buffer, size, dest, tag, c);
    if (!a.code)
        rvmc_call(RVMC_TEST, a.value, 0, 0, 0, 0, 0);
    return a.code;
}
/* A ready send's receive has to be posted (3.4): then a synchronous send is complete when it is tested the first time. */
RVMC_INLINE long rvmc_ready(const void *buffer, long size, int dest, int tag, MPI_Comm c)
{
    rvmc_answer a = rvmc_send(RVMC_ISSEND, buffer, size, dest, tag, c);

    if (a.code)
        return a.code;
    return rvmc_call(RVMC_TEST, a.value, 0, 0, 0, 0, 0).value ? RVMC_OK : RVMC_NOT_READY;
}
/* A request that is complete: a send to no process. */
RVMC_INLINE long rvmc_complete(long code, MPI_Request *request)
{
    rvmc_answer a = {code, 0};

    if (!code)
        a = rvmc_call(RVMC_ISEND, 0, 0, MPI_PROC_NULL, 0, MPI_COMM_WORLD, 0);
    return rvmc_made(a, request, RVMC_SENDER);
}
RVMC_INLINE int MPI_Bsend(const void *buffer, int count, MPI_Datatype type, int dest, int tag, MPI_Comm c)
{
    long code;

    if (rvmc_is_derived(type))
        return rvmc_derived.send("MPI_Bsend", RVMC_BSEND, 0, buffer, count, type, dest, tag, c, 0);
    code = rvmc_buffered(buffer, rvmc_bytes(count, type), dest, tag, c);
    return rvmc_code("MPI_Bsend", code, 0, buffer, count, type, dest, tag, c);
}
RVMC_INLINE int MPI_Rsend(const void *buffer, int count, MPI_Datatype type, int dest, int tag, MPI_Comm c)
{
    long code;

    if (rvmc_is_derived(type))
        return rvmc_derived.send("MPI_Rsend", RVMC_RSEND, 0, buffer, count, type, dest, tag, c, 0);
    code = rvmc_ready(buffer, rvmc_bytes(count, type), dest, tag, c);
    return rvmc_code("MPI_Rsend", code, 0, buffer, count, type, dest, tag, c);
}
RVMC_INLINE int MPI_Ibsend(const void *buffer, int count, MPI_Datatype type, int dest, int tag, MPI_Comm c,
                           MPI_Request *request)
{
    long code;

    if (rvmc_is_derived(type))
        return rvmc_derived.send("MPI_Ibsend", RVMC_IBSEND, 0, buffer, count, type, dest, tag, c, request);
    code = rvmc_complete(rvmc_buffered(buffer, rvmc_bytes(count, type), dest, tag, c), request);
    return rvmc_code("MPI_Ibsend", code, 0, buffer, count, type, dest, tag, c);
}
RVMC_INLINE int MPI_Irsend(const void *buffer, int count, MPI_Datatype type, int dest, int tag, MPI_Comm c,
                           MPI_Request *request)
{
    long code;

    if (rvmc_is_derived(type))
        return rvmc_derived.send("MPI_Irsend", RVMC_IRSEND, 0, buffer, count, type, dest, tag, c, request);
    code = rvmc_complete(rvmc_ready(buffer, rvmc_bytes(count, type), dest, tag, c), request);
    return rvmc_code("MPI_Irsend", code, 0, buffer, count, type, dest, tag, c);
}
RVMC_INLINE int MPI_Ssend_init(const void *buffer, int count, MPI_Datatype type, int dest, int tag, MPI_Comm c,
                               MPI_Request *request)
{
    long code;

    if (rvmc_is_derived(type))
        return rvmc_derived.send("MPI_Ssend_init", RVMC_SSEND_INIT, 0, buffer, count, type, dest, tag, c, request);
    code = rvmc_own_init(RVMC_SYNCHRONOUS, buffer, rvmc_bytes(count, type), dest, tag, c, request);
    return rvmc_code("MPI_Ssend_init", code, 0, buffer, count, type, dest, tag, c);
}
#ifdef RVMC_UNBUFFERED
/* A standard send that waits for its receive: at each start a synchronous one (3.9). */
RVMC_INLINE int MPI_Send_init(const void *buffer, int count, MPI_Datatype type, int dest, int tag, MPI_Comm c,
                              MPI_Request *request)
{
    long code;

    if (rvmc_is_derived(type))
        return rvmc_derived.send("MPI_Send_init", RVMC_SSEND_INIT, 0, buffer, count, type, dest, tag, c, request);
    code = rvmc_own_init(RVMC_SYNCHRONOUS, buffer, rvmc_bytes(count, type), dest, tag, c, request);
    return rvmc_code("MPI_Send_init", code, 0, buffer, count, type, dest, tag, c);
}
#endif
RVMC_INLINE int MPI_Bsend_init(const void *buffer, int count, MPI_Datatype type, int dest, int tag, MPI_Comm c,
                               MPI_Request *request)
{
    long code;

    if (rvmc_is_derived(type))
        return rvmc_derived.send("MPI_Bsend_init", RVMC_BSEND_INIT, 0, buffer, count, type, dest, tag, c, request);
    code = rvmc_own_init(RVMC_BUFFERED, buffer, rvmc_bytes(count, type), dest, tag, c, request);
    return rvmc_code("MPI_Bsend_init", code, 0, buffer, count, type, dest, tag, c);
}
RVMC_INLINE int MPI_Rsend_init(const void *buffer, int count, MPI_Datatype type, int dest, int tag, MPI_Comm c,
                               MPI_Request *request)
{
    long code;

    if (rvmc_is_derived(type))
        return rvmc_derived.send("MPI_Rsend_init", RVMC_RSEND_INIT, 0, buffer, count, type, dest, tag, c, request);
    code = rvmc_own_init(RVMC_READY, buffer, rvmc_bytes(count, type), dest, tag, c, request);
    return rvmc_code("MPI_Rsend_init", code, 0, buffer, count, type, dest, tag, c);
}
/* The send has copied its bytes and is complete, so the request is the receive's (3.10). */
RVMC_INLINE long rvmc_sent_at_once(const void *buffer, long size, int dest, int tag, MPI_Comm c)
{
    rvmc_answer a = rvmc_send(RVMC_ISEND, buffer, size, dest, tag, c);

    if (!a.code)
        rvmc_call(RVMC_TEST, a.value, 0, 0, 0, 0, 0);
    return a.code;
}
RVMC_INLINE int MPI_Isendrecv(const void *out, int out_count, MPI_Datatype out_type, int dest, int out_tag, void *in,
                              int in_count, MPI_Datatype in_type, int source, int in_tag, MPI_Comm c, MPI_Request *request)
{
    long code;

    if (rvmc_is_derived(out_type) || rvmc_is_derived(in_type)) {
        int error = rvmc_derived.send("MPI_Isendrecv", RVMC_OWN_SEND, RVMC_OUT, out, out_count, out_type, dest, out_tag, c,
                                       0);

        return error ? error : rvmc_derived.receive("MPI_Isendrecv", RVMC_IRECV, RVMC_IN, in, in_count, in_type, source,
                                                    in_tag, c, 0, request);
    }
    code = rvmc_sent_at_once(out, rvmc_bytes(out_count, out_type), dest, out_tag, c);
    if (code)
        return rvmc_code("MPI_Isendrecv", code, RVMC_OUT, out, out_count, out_type, dest, out_tag, c);
    code = rvmc_posted(in, rvmc_bytes(in_count, in_type), source, in_tag, c, request);
    return rvmc_code("MPI_Isendrecv", code, RVMC_IN + RVMC_SOURCE, in, in_count, in_type, source, in_tag, c);
}
RVMC_INLINE int MPI_Isendrecv_replace(void *buffer, int count, MPI_Datatype type, int dest, int out_tag, int source,
                                      int in_tag, MPI_Comm c, MPI_Request *request)
{
    long code;

    if (rvmc_is_derived(type)) {
        int error = rvmc_derived.send("MPI_Isendrecv_replace", RVMC_OWN_SEND, 0, buffer, count, type, dest, out_tag, c, 0);

        return error ? error : rvmc_derived.receive("MPI_Isendrecv_replace", RVMC_IRECV, 0, buffer, count, type, source,
                                                    in_tag, c, 0, request);
    }
    code = rvmc_sent_at_once(buffer, rvmc_bytes(count, type), dest, out_tag, c);
    if (code)
        return rvmc_code("MPI_Isendrecv_replace", code, 0, buffer, count, type, dest, out_tag, c);
    code = rvmc_posted(buffer, rvmc_bytes(count, type), source, in_tag, c, request);
    return rvmc_code("MPI_Isendrecv_replace", code, RVMC_SOURCE, buffer, count, type, source, in_tag, c);
}

/* --- collectives (chapter 6) --- */

int MPI_Barrier(MPI_Comm c);
int MPI_Bcast(void *buffer, int count, MPI_Datatype type, int root, MPI_Comm c);
int MPI_Gather(const void *out, int out_count, MPI_Datatype out_type, void *in, int in_count, MPI_Datatype in_type, int root,
               MPI_Comm c);
int MPI_Gatherv(const void *out, int out_count, MPI_Datatype out_type, void *in, const int in_counts[], const int places[],
                MPI_Datatype in_type, int root, MPI_Comm c);
int MPI_Scatter(const void *out, int out_count, MPI_Datatype out_type, void *in, int in_count, MPI_Datatype in_type,
                int root, MPI_Comm c);
int MPI_Scatterv(const void *out, const int out_counts[], const int places[], MPI_Datatype out_type, void *in, int in_count,
                 MPI_Datatype in_type, int root, MPI_Comm c);
int MPI_Allgather(const void *out, int out_count, MPI_Datatype out_type, void *in, int in_count, MPI_Datatype in_type,
                  MPI_Comm c);
int MPI_Allgatherv(const void *out, int out_count, MPI_Datatype out_type, void *in, const int in_counts[],
                   const int places[], MPI_Datatype in_type, MPI_Comm c);
int MPI_Alltoall(const void *out, int out_count, MPI_Datatype out_type, void *in, int in_count, MPI_Datatype in_type,
                 MPI_Comm c);
int MPI_Alltoallv(const void *out, const int out_counts[], const int out_places[], MPI_Datatype out_type, void *in,
                  const int in_counts[], const int in_places[], MPI_Datatype in_type, MPI_Comm c);
int MPI_Alltoallw(const void *out, const int out_counts[], const int out_places[], const MPI_Datatype out_types[], void *in,
                  const int in_counts[], const int in_places[], const MPI_Datatype in_types[], MPI_Comm c);
int MPI_Op_create(MPI_User_function *function, int commutes, MPI_Op *op);
int MPI_Op_free(MPI_Op *op);
int MPI_Op_commutative(MPI_Op op, int *commutes);

/* --- reductions (6.9) --- */

/* into becomes: before, op, into. The functions of one shape of datatype each (lib/folds.c). A program that names its
   datatype has only that one linked. */
typedef long rvmc_fold(void *into, const void *before, long count, MPI_Op op);
rvmc_fold rvmc_fold_int8, rvmc_fold_int16, rvmc_fold_int32, rvmc_fold_int64;
rvmc_fold rvmc_fold_uint8, rvmc_fold_uint16, rvmc_fold_uint32, rvmc_fold_uint64;
rvmc_fold rvmc_fold_byte, rvmc_fold_truth8, rvmc_fold_truth32, rvmc_fold_float, rvmc_fold_double, rvmc_fold_long_double;
rvmc_fold rvmc_fold_float_complex, rvmc_fold_double_complex, rvmc_fold_long_double_complex;
rvmc_fold rvmc_fold_float_int, rvmc_fold_double_int, rvmc_fold_long_double_int, rvmc_fold_long_int, rvmc_fold_short_int;
rvmc_fold rvmc_fold_two_ints, rvmc_fold_two_floats, rvmc_fold_two_doubles;
rvmc_fold *rvmc_fold_of(MPI_Datatype type);

#define RVMC_SHAPE(kind, size) (RVMC_##kind << 8 | (size))
RVMC_INLINE rvmc_fold *rvmc_fold_chosen(MPI_Datatype type)
{
    switch (RVMC_SHAPE_OF(type)) {
    case RVMC_SHAPE(SIGNED, 1): return rvmc_fold_int8;
    case RVMC_SHAPE(SIGNED, 2): return rvmc_fold_int16;
    case RVMC_SHAPE(SIGNED, 4): return rvmc_fold_int32;
    case RVMC_SHAPE(SIGNED, 8): return rvmc_fold_int64;
    case RVMC_SHAPE(UNSIGNED, 1): return rvmc_fold_uint8;
    case RVMC_SHAPE(UNSIGNED, 2): return rvmc_fold_uint16;
    case RVMC_SHAPE(UNSIGNED, 4): return rvmc_fold_uint32;
    case RVMC_SHAPE(UNSIGNED, 8): return rvmc_fold_uint64;
    case RVMC_SHAPE(BYTES, 1): return rvmc_fold_byte;
    case RVMC_SHAPE(TRUTH, 1): return rvmc_fold_truth8;
    case RVMC_SHAPE(TRUTH, 4): return rvmc_fold_truth32;
    case RVMC_SHAPE(FLOATING, 4): return rvmc_fold_float;
    case RVMC_SHAPE(FLOATING, 8): return rvmc_fold_double;
    case RVMC_SHAPE(FLOATING, 16): return rvmc_fold_long_double;
    case RVMC_SHAPE(COMPLEX, 8): return rvmc_fold_float_complex;
    case RVMC_SHAPE(COMPLEX, 16): return rvmc_fold_double_complex;
    case RVMC_SHAPE(COMPLEX, 32): return rvmc_fold_long_double_complex;
    case RVMC_SHAPE(FLOATING_PAIR, 8): return rvmc_fold_float_int;
    case RVMC_SHAPE(FLOATING_PAIR, 16): return rvmc_fold_double_int;
    case RVMC_SHAPE(FLOATING_PAIR, 32): return rvmc_fold_long_double_int;
    case RVMC_SHAPE(SIGNED_PAIR, 16): return rvmc_fold_long_int;
    case RVMC_SHAPE(SIGNED_PAIR, 8): return rvmc_fold_short_int;
    case RVMC_SHAPE(TWO_SIGNED, 8): return rvmc_fold_two_ints;
    case RVMC_SHAPE(TWO_FLOATING, 8): return rvmc_fold_two_floats;
    case RVMC_SHAPE(TWO_FLOATING, 16): return rvmc_fold_two_doubles;
    default: return 0;
    }
}
#define RVMC_FOLD(type) (__builtin_constant_p(type) ? rvmc_fold_chosen(type) : rvmc_fold_of(type))

/* Each of these has the function for its datatype behind MPI's arguments, and MPI's name where it is a symbol. In C that
   name is the inline function's, which adds the function. */
#ifndef RVMC_REDUCTIONS
int rvmc_Reduce(const void *from, void *to, int count, MPI_Datatype type, MPI_Op op, int root, MPI_Comm c, rvmc_fold *fold)
        __asm__("MPI_Reduce");
int rvmc_Allreduce(const void *from, void *to, int count, MPI_Datatype type, MPI_Op op, MPI_Comm c, rvmc_fold *fold)
        __asm__("MPI_Allreduce");
int rvmc_Scan(const void *from, void *to, int count, MPI_Datatype type, MPI_Op op, MPI_Comm c, rvmc_fold *fold)
        __asm__("MPI_Scan");
int rvmc_Exscan(const void *from, void *to, int count, MPI_Datatype type, MPI_Op op, MPI_Comm c, rvmc_fold *fold)
        __asm__("MPI_Exscan");
int rvmc_Reduce_scatter(const void *from, void *to, const int counts[], MPI_Datatype type, MPI_Op op, MPI_Comm c,
                        rvmc_fold *fold) __asm__("MPI_Reduce_scatter");
int rvmc_Reduce_scatter_block(const void *from, void *to, int count, MPI_Datatype type, MPI_Op op, MPI_Comm c,
                              rvmc_fold *fold) __asm__("MPI_Reduce_scatter_block");
int rvmc_Reduce_local(const void *from, void *to, int count, MPI_Datatype type, MPI_Op op, rvmc_fold *fold)
        __asm__("MPI_Reduce_local");

#define RVMC_RENAMED(name) __asm__("rvmc_address_of_" #name)
static int MPI_Reduce(const void *, void *, int, MPI_Datatype, MPI_Op, int, MPI_Comm) RVMC_RENAMED(Reduce);
static int MPI_Allreduce(const void *, void *, int, MPI_Datatype, MPI_Op, MPI_Comm) RVMC_RENAMED(Allreduce);
static int MPI_Scan(const void *, void *, int, MPI_Datatype, MPI_Op, MPI_Comm) RVMC_RENAMED(Scan);
static int MPI_Exscan(const void *, void *, int, MPI_Datatype, MPI_Op, MPI_Comm) RVMC_RENAMED(Exscan);
static int MPI_Reduce_scatter(const void *, void *, const int[], MPI_Datatype, MPI_Op, MPI_Comm) RVMC_RENAMED(Reduce_scatter);
static int MPI_Reduce_scatter_block(const void *, void *, int, MPI_Datatype, MPI_Op, MPI_Comm)
        RVMC_RENAMED(Reduce_scatter_block);
static int MPI_Reduce_local(const void *, void *, int, MPI_Datatype, MPI_Op) RVMC_RENAMED(Reduce_local);

RVMC_INLINE int MPI_Reduce(const void *from, void *to, int count, MPI_Datatype type, MPI_Op op, int root, MPI_Comm c)
{
    return rvmc_Reduce(from, to, count, type, op, root, c, RVMC_FOLD(type));
}
RVMC_INLINE int MPI_Allreduce(const void *from, void *to, int count, MPI_Datatype type, MPI_Op op, MPI_Comm c)
{
    return rvmc_Allreduce(from, to, count, type, op, c, RVMC_FOLD(type));
}
RVMC_INLINE int MPI_Scan(const void *from, void *to, int count, MPI_Datatype type, MPI_Op op, MPI_Comm c)
{
    return rvmc_Scan(from, to, count, type, op, c, RVMC_FOLD(type));
}
RVMC_INLINE int MPI_Exscan(const void *from, void *to, int count, MPI_Datatype type, MPI_Op op, MPI_Comm c)
{
    return rvmc_Exscan(from, to, count, type, op, c, RVMC_FOLD(type));
}
RVMC_INLINE int MPI_Reduce_scatter(const void *from, void *to, const int counts[], MPI_Datatype type, MPI_Op op, MPI_Comm c)
{
    return rvmc_Reduce_scatter(from, to, counts, type, op, c, RVMC_FOLD(type));
}
RVMC_INLINE int MPI_Reduce_scatter_block(const void *from, void *to, int count, MPI_Datatype type, MPI_Op op, MPI_Comm c)
{
    return rvmc_Reduce_scatter_block(from, to, count, type, op, c, RVMC_FOLD(type));
}
RVMC_INLINE int MPI_Reduce_local(const void *from, void *to, int count, MPI_Datatype type, MPI_Op op)
{
    return rvmc_Reduce_local(from, to, count, type, op, RVMC_FOLD(type));
}
#endif

#endif
