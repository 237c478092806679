/* transfers.c: sending and receiving data of a datatype that a program made. Where they are one run of bytes, they go as they
   are. Else they are packed at the call of a send, which copies them in any case, and unpacked when a receive completes. */
#include <stdlib.h>
#include "../mpi.h"
#include "errors.h"
#include "layouts.h"
#include "mismatch.h"
#include "owners.h"

/* A receive that isn't complete, or a persistent one. */
struct receive {
    void *place;
    long count, size;
    MPI_Datatype type;
    char packed[];
};

/* Data in the program's memory: where the first byte of them is, how many bytes from there on, and how many of them count. */
struct data {
    void *place;
    long count;
    MPI_Datatype type;
    char *first;
    long span, size;
    int solid;
};

static struct data data_of(const void *place, long count, MPI_Datatype type)
{
    struct rvmc_layout one = rvmc_measures(type);
    long extent = one.high - one.low, all = count > 0 ? (count - 1) * extent : 0;
    struct data d = {(void *)place, count, type, (char *)place, 0, count * one.bytes, 0};

    d.first += one.true_low + (all < 0 ? all : 0);
    d.span = count > 0 ? one.true_high - one.true_low + (all < 0 ? -all : all) : 0;
    d.solid = one.solid && (count <= 1 || extent == one.bytes);
    return d;
}

/* A null pointer is no place, but for datatypes with addresses in them. A receive doesn't write into the program. */
static long check_place(const struct data *d, unsigned long lowest)
{
    unsigned long first = (unsigned long)d->first, memory = RVMC_NUMBER(rvmc_memory);

    if (!d->size)
        return RVMC_OK;
    return first < lowest || first > memory || (unsigned long)d->span > memory - first ? RVMC_BAD_BUFFER : RVMC_OK;
}

static const char *type_argument(int of)
{
    return of == RVMC_OUT ? "sendtype" : of == RVMC_IN ? "recvtype" : "datatype";
}

/* --- sending --- */

static char *packed_data(const void *place, int count, MPI_Datatype type)
{
    struct data d = data_of(place, count, type);
    char *packed = malloc(d.size ? d.size : 1);

    if (packed)
        rvmc_pack(packed, d.size, place, count, type);
    return packed;
}

static long sent(int how, const char *buffer, long size, int dest, int tag, MPI_Comm c, MPI_Request *request)
{
    switch (how) {
    case RVMC_BSEND: return rvmc_buffered(buffer, size, dest, tag, c);
    case RVMC_RSEND: return rvmc_ready(buffer, size, dest, tag, c);
    case RVMC_IBSEND: return rvmc_complete(rvmc_buffered(buffer, size, dest, tag, c), request);
    case RVMC_IRSEND: return rvmc_complete(rvmc_ready(buffer, size, dest, tag, c), request);
    case RVMC_ISEND:
    case RVMC_ISSEND: return rvmc_made(rvmc_send(how, buffer, size, dest, tag, c), request, RVMC_SENDER);
    case RVMC_OWN_SEND: return rvmc_own_send(buffer, size, dest, tag, c);
    default: return rvmc_send(how, buffer, size, dest, tag, c).code;
    }
}

/* A persistent send packs its data at each start. */
static long init_send(int how, const struct data *d, int dest, int tag, MPI_Comm c, MPI_Request *request)
{
    int mode = how == RVMC_SSEND_INIT ? RVMC_SYNCHRONOUS : how == RVMC_BSEND_INIT ? RVMC_BUFFERED
             : how == RVMC_RSEND_INIT ? RVMC_READY : RVMC_STANDARD;
    long code = rvmc_own_init(mode, d->first, d->size < d->span ? d->size : d->span, dest, tag, c, request);

    if (!code)
        rvmc_own_init_type(*request, d->place, d->size, (int)d->count, d->type);
    return code;
}

static int is_init(int how)
{
    return how == RVMC_SEND_INIT || how >= RVMC_SSEND_INIT;
}

static int send(const char *call, int how, int of, const void *buffer, int count, MPI_Datatype type, int dest, int tag,
                MPI_Comm c, MPI_Request *request)
{
    struct data d = data_of(buffer, count, type);
    int error = rvmc_check_type(call, type_argument(of), type, 1);
    long code = count < 0 ? RVMC_BAD_COUNT : check_place(&d, 1);
    char *packed = 0;

    if (request)
        *request = MPI_REQUEST_NULL;
    if (error)
        return error;
    if (!code && !d.solid && !is_init(how)) {
        packed = packed_data(buffer, count, type);
        code = packed ? RVMC_OK : RVMC_NO_MEMORY;
    }
    if (!code)
        code = is_init(how) ? init_send(how, &d, dest, tag, c, request)
                            : sent(how, packed ? packed : d.first, d.size, dest, tag, c, request);
    free(packed);
    return rvmc_code(call, code, of, d.first, count < 0 ? count : d.size, MPI_BYTE, dest, tag, c);
}

/* --- receiving --- */

static long received(int how, void *buffer, long size, int source, int tag, MPI_Comm c, MPI_Status *status,
                     MPI_Request *request)
{
    MPI_Message message;

    switch (how) {
    case RVMC_RECV: return rvmc_receive(buffer, size, source, tag, c, status);
    case RVMC_MRECV: return rvmc_receive_matched(buffer, size, request, status);
    case RVMC_IRECV: return rvmc_posted(buffer, size, source, tag, c, request);
    case RVMC_RECV_INIT: return rvmc_init_receive(buffer, size, source, tag, c, request);
    default:
        message = *request;
        return rvmc_post_matched(buffer, size, &message, request);
    }
}

static void unpack(const struct receive *r, long code, const MPI_Status *status)
{
    long size = status->rvmc_bytes;

    if (code == RVMC_OK || code == RVMC_TRUNCATED)
        rvmc_unpack(r->packed, size < r->size ? size : r->size, r->place, r->count, r->type);
}

static void freed(void *thing)
{
    struct receive *r = thing;

    rvmc_leave_type(r->type);
    free(r);
}

static long started(MPI_Request request)
{
    return rvmc_start_machine(request, rvmc_kind(request));
}

static MPI_Request inner(MPI_Request request)
{
    return request;
}

static long asked(long number, MPI_Request *request, int *flag, MPI_Status *status)
{
    MPI_Request was = *request;
    struct receive *r = rvmc_owned(was);
    struct rvmc_rest rest = rvmc_rests[was];
    int kind = rvmc_kind(was);
    MPI_Status own, *where = status ? status : &own;
    long code;

    if ((kind & (RVMC_PERSISTENT | RVMC_ACTIVE)) == RVMC_PERSISTENT) {
        *flag = 1;
        *where = rvmc_empty_status;
        return RVMC_OK;
    }
    if (number == RVMC_TESTALL) {
        *flag = 1;
        code = rvmc_completed(request, kind, &rest, where, RVMC_OK);
    } else {
        code = rvmc_asked_machine(number, request, kind, flag, where);
    }
    if (!*flag)
        return code;
    unpack(r, code, where);
    if (!(kind & RVMC_PERSISTENT))
        freed(r);
    return code;
}

static int is_waiting(int how)
{
    return how == RVMC_RECV || how == RVMC_MRECV;
}

/* Receives packed bytes, and unpacks them now or when the request completes. */
static long receive_packed(int how, const struct data *d, int source, int tag, MPI_Comm c, MPI_Status *status,
                           MPI_Request *request)
{
    static const struct rvmc_owner owner = {asked, started, inner, freed, 0};
    struct receive *r = malloc(sizeof *r + d->size);
    MPI_Status own, *where = status ? status : &own;
    long code;

    if (!r)
        return RVMC_NO_MEMORY;
    *r = (struct receive){d->place, d->count, d->size, d->type};
    code = received(how, r->packed, d->size, source, tag, c, where, request);
    if (!code && !is_waiting(how)) {
        rvmc_use_type(d->type);
        rvmc_own_request(*request, &owner, r);
        return code;
    }
    if (is_waiting(how))
        unpack(r, code, where);
    free(r);
    return code;
}

static int receive(const char *call, int how, int of, void *buffer, int count, MPI_Datatype type, int source, int tag,
                   MPI_Comm c, MPI_Status *status, MPI_Request *request)
{
    struct data d = data_of(buffer, count, type);
    int error = rvmc_check_type(call, type_argument(of), type, 1);
    long code = count < 0 ? RVMC_BAD_COUNT : check_place(&d, RVMC_NUMBER(rvmc_stacks));

    if (!error && !code)
        code = d.solid ? received(how, d.first, d.size, source, tag, c, status, request)
                       : receive_packed(how, &d, source, tag, c, status, request);
    if ((error || code) && request && how != RVMC_MRECV)
        *request = MPI_REQUEST_NULL;
    return error ? error : rvmc_code(call, code, of | RVMC_SOURCE, d.first, count < 0 ? count : d.size, MPI_BYTE, source, tag, c);
}

/* A partition is sent out of the program's memory, so its data have to be one run of bytes. */
static int in_parts(const char *call, long number, const void *buffer, int partitions, MPI_Count count, MPI_Datatype type,
                    int peer, int tag, MPI_Comm c, MPI_Request *request)
{
    struct data d = data_of(buffer, count, type);
    int error = rvmc_check_type(call, "datatype", type, 1);

    if (error)
        return error;
    if (!d.solid || (partitions > 1 && data_of(buffer, 2, type).solid == 0))
        return rvmc_trapped(rvmc_raise(call, c, MPI_ERR_UNSUPPORTED_OPERATION, "datatype",
                                       "the data of a partition have to be one run of bytes"));
    if (number == RVMC_PSEND_INIT)
        return MPI_Psend_init(d.first, partitions, d.size, MPI_BYTE, peer, tag, c, MPI_INFO_NULL, request);
    return MPI_Precv_init(d.first, partitions, d.size, MPI_BYTE, peer, tag, c, MPI_INFO_NULL, request);
}

static void changed_uses(MPI_Datatype type, int change)
{
    if (change > 0)
        rvmc_use_type(type);
    else
        rvmc_leave_type(type);
}

/* The basic elements, block by block. */
static struct rvmc_signature signature(MPI_Datatype type)
{
    struct rvmc_layout *l = rvmc_layout_of(type);
    struct rvmc_signature once = {1, 0};

    for (int i = 0; l && i < l->count; i++)
        once = rvmc_signature_then(once, rvmc_signature_times(rvmc_signature_of(l->blocks[i].type), l->blocks[i].length));
    return l ? rvmc_signature_times(once, l->times) : once;
}

static int usable(MPI_Datatype type)
{
    struct rvmc_layout *l = rvmc_layout_of(type);

    return l && l->handles && l->committed;
}

static long extent(MPI_Datatype type)
{
    struct rvmc_layout *l = rvmc_layout_of(type);

    return l ? l->high - l->low : 0;
}

static long bytes(MPI_Datatype type)
{
    struct rvmc_layout *l = rvmc_layout_of(type);

    return l ? l->bytes : 0;
}

void rvmc_derived_begin(void)
{
    rvmc_derived = (struct rvmc_derived){
        .send = send, .receive = receive, .in_parts = in_parts, .packed = packed_data, .unpacked = rvmc_unpack,
        .changed_uses = changed_uses,
        .layout = rvmc_layout_of, .elements = rvmc_elements_in, .usable = usable, .extent = extent, .bytes = bytes,
    };
    rvmc_signature_of_derived = signature;
}
