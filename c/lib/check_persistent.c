/* check_persistent.c: requests that a program starts under --check: persistent sends and receives (MPI 4.1, 3.9), persistent
   collectives (6.13), and partitioned transfers (4.2). Their buffers are active from a start to its completion. */
#include "checked.h"
#include "layouts.h"

/* The machine's request sends and receives the room with the head. */
static struct rvmc_record *lasting(const char *call, unsigned behind, const void *buffer, int count, MPI_Datatype type,
                                   int peer, MPI_Comm c, int kind)
{
    struct rvmc_record *r = rvmc_record_new(call, behind, kind | RVMC_IS_PERSISTENT);

    if (!r)
        return 0;
    r->buffer = (void *)buffer;
    r->count = count;
    r->type = type;
    r->peer = peer;
    r->communicator = c;
    if (rvmc_has_letter(buffer, count, type, peer)) {
        r->size = count * rvmc_type_seen(type).size;
        r->room = rvmc_check_take(r->size + RVMC_LETTER);
    }
    return r;
}

static void open_lasting(struct rvmc_record *r, MPI_Request *request, MPI_Request raw)
{
    *request = raw;
    if (r && raw != MPI_REQUEST_NULL)
        rvmc_record_open(r, request, raw);
    else if (r)
        rvmc_record_gone(r);
}

#define LASTS(name, qualifier, kind) \
    int rvmc_checked_##name(qualifier void *buffer, int count, MPI_Datatype type, int peer, int tag, MPI_Comm c, \
                            MPI_Request *request) \
    { \
        MPI_Request raw = MPI_REQUEST_NULL; \
        struct rvmc_record *r; \
        int code, has_room; \
        \
        rvmc_check_begin("MPI_" #name, RVMC_BEHIND); \
        if ((kind) & RVMC_IS_RECEIVE) \
            peer = rvmc_source_of(peer); \
        rvmc_check_communicator("MPI_" #name, RVMC_BEHIND, c); \
        rvmc_variable_lost("MPI_" #name, RVMC_BEHIND, request); \
        r = lasting("MPI_" #name, RVMC_BEHIND, buffer, count, type, peer, c, kind); \
        has_room = r && r->room; \
        code = MPI_##name(has_room ? r->room : buffer, has_room ? (int)r->size + RVMC_LETTER : count, \
                          has_room ? MPI_BYTE : type, peer, tag, c, &raw); \
        open_lasting(r, request, raw); \
        return rvmc_check_end(code); \
    }
LASTS(Send_init, const, RVMC_IS_SEND)
LASTS(Ssend_init, const, RVMC_IS_SEND)
LASTS(Bsend_init, const, RVMC_IS_SEND)
LASTS(Rsend_init, const, RVMC_IS_SEND)
LASTS(Recv_init, , RVMC_IS_RECEIVE)

/* --- partitions --- */

/* A partition is one run of bytes (4.2). */
static void watch_partition(struct rvmc_record *r, int partition, unsigned ready)
{
    struct rvmc_layout one = rvmc_measures(r->type);
    long low = (long)r->buffer + partition * r->count * (one.high - one.low) + one.true_low;

    if (partition < 0 || partition >= r->partitions || r->count * one.bytes <= 0)
        return;
    rvmc_check_lock();
    rvmc_region_add(r, &(struct rvmc_region){
        .low = (unsigned)low, .length = (unsigned)(r->count * one.bytes), .stride = 1, .count = 1,
        .is_received = (r->kind & RVMC_IS_RECEIVE) != 0, .partition = (short)(partition + 1), .ready = ready});
    rvmc_check_unlock();
}

static const char *partition_at(const struct rvmc_record *r, int partition)
{
    return (const char *)r->buffer + partition * r->count * rvmc_type_seen(r->type).extent;
}

#define IN_PARTS(name, qualifier, kind) \
    int rvmc_checked_##name(qualifier void *buffer, int partitions, MPI_Count count, MPI_Datatype type, int peer, int tag, \
                            MPI_Comm c, MPI_Info info, MPI_Request *request) \
    { \
        MPI_Request raw = MPI_REQUEST_NULL; \
        struct rvmc_record *r; \
        int code; \
        \
        rvmc_check_begin("MPI_" #name, RVMC_BEHIND); \
        if ((kind) & RVMC_IS_RECEIVE) \
            peer = rvmc_source_of(peer); \
        rvmc_check_communicator("MPI_" #name, RVMC_BEHIND, c); \
        rvmc_variable_lost("MPI_" #name, RVMC_BEHIND, request); \
        r = lasting("MPI_" #name, RVMC_BEHIND, buffer, (int)count, type, MPI_PROC_NULL, c, kind); \
        code = MPI_##name(buffer, partitions, count, type, peer, tag, c, info, &raw); \
        if (r) \
            r->partitions = partitions; \
        open_lasting(r, request, raw); \
        return rvmc_check_end(code); \
    }
IN_PARTS(Psend_init, const, RVMC_IS_SEND)
IN_PARTS(Precv_init, , RVMC_IS_RECEIVE)

/* A partition that is ready has its last bytes: they are looked at, and stay as they are until the request is complete. */
static int make_ready(const char *call, unsigned behind, int partition, MPI_Request request)
{
    struct rvmc_record *r = rvmc_record_of(request);
    int code;

    if (r && partition >= 0 && partition < r->partitions)
        rvmc_check_buffer(call, behind, partition_at(r, partition), r->count, r->type, RVMC_IS_READ);
    if (rvmc_told)
        return MPI_SUCCESS;
    code = MPI_Pready(partition, r ? r->raw : request);
    if (r && !code && (r->kind & RVMC_IS_ACTIVE))
        watch_partition(r, partition, behind);
    return code;
}

int rvmc_checked_Pready(int partition, MPI_Request request)
{
    rvmc_check_begin("MPI_Pready", RVMC_BEHIND);
    return rvmc_check_end(make_ready("MPI_Pready", RVMC_BEHIND, partition, request));
}

int rvmc_checked_Pready_range(int low, int high, MPI_Request request)
{
    int code = MPI_SUCCESS;

    rvmc_check_begin("MPI_Pready_range", RVMC_BEHIND);
    for (int i = low; i <= high && !code && !rvmc_told; i++)
        code = make_ready("MPI_Pready_range", RVMC_BEHIND, i, request);
    return rvmc_check_end(code);
}

int rvmc_checked_Pready_list(int length, const int partitions[], MPI_Request request)
{
    int code = MPI_SUCCESS;

    rvmc_check_begin("MPI_Pready_list", RVMC_BEHIND);
    for (int i = 0; i < length && !code && !rvmc_told; i++)
        code = make_ready("MPI_Pready_list", RVMC_BEHIND, partitions[i], request);
    return rvmc_check_end(code);
}

int rvmc_checked_Parrived(MPI_Request request, int partition, int *flag)
{
    struct rvmc_record *r = rvmc_record_of(request);
    int code;

    rvmc_check_begin("MPI_Parrived", RVMC_BEHIND);
    code = MPI_Parrived(r ? r->raw : request, partition, flag);
    if (r && !code && *flag) {
        rvmc_check_lock();
        rvmc_region_drop_partition(r, partition + 1);
        rvmc_check_unlock();
    }
    return rvmc_check_end(code);
}

/* --- starts --- */

/* The memory that a request reads or writes once it is started. */
static void look_at_buffers(const char *call, unsigned behind, const struct rvmc_record *r)
{
    int is_received = (r->kind & RVMC_IS_RECEIVE) != 0;

    if (r->room)
        rvmc_check_buffer(call, behind, r->buffer, r->count, r->type, is_received);
    for (int i = 0; i < r->partitions && is_received; i++)
        rvmc_check_buffer(call, behind, partition_at(r, i), r->count, r->type, RVMC_IS_WRITTEN);
    for (const struct rvmc_kept *p = r->parts; p; p = p->next)
        rvmc_check_buffer(call, behind, p->buffer, p->count, p->type, p->is_written);
}

/* The request is started. Of a partitioned transfer that sends, each partition is active once it is ready. */
static void watch_buffers(struct rvmc_record *r)
{
    int is_received = (r->kind & RVMC_IS_RECEIVE) != 0;

    for (int i = 0; i < r->partitions && is_received; i++)
        watch_partition(r, i, 0);
    rvmc_check_lock();
    r->kind |= RVMC_IS_ACTIVE;
    if (!r->partitions && r->type)
        rvmc_type_regions(r, r->buffer, r->count, r->type, is_received);
    for (const struct rvmc_kept *p = r->parts; p; p = p->next)
        rvmc_type_regions(r, p->buffer, p->count, p->type, p->is_written);
    rvmc_check_unlock();
}

/* A request that starts: what it sends is looked at and put behind its head. */
static int start(const char *call, unsigned behind, MPI_Request *request)
{
    struct rvmc_record *r = rvmc_record_of(*request);
    MPI_Request raw = r ? r->raw : *request;
    int lent, code;

    if (!r || (r->kind & RVMC_IS_ACTIVE) || !(r->kind & RVMC_IS_PERSISTENT))
        return MPI_Start(&raw);
    look_at_buffers(call, behind, r);
    if (rvmc_told)
        return MPI_SUCCESS;
    if (r->room && (r->kind & RVMC_IS_SEND))
        rvmc_write_letter(r);
    lent = r->room ? RVMC_LETTER : 0;
    rvmc_lend_room(lent);
    code = MPI_Start(&raw);
    rvmc_lend_room(-lent);
    if (!code)
        watch_buffers(r);
    return code;
}

int rvmc_checked_Start(MPI_Request *request)
{
    rvmc_check_begin("MPI_Start", RVMC_BEHIND);
    return rvmc_check_end(start("MPI_Start", RVMC_BEHIND, request));
}

int rvmc_checked_Startall(int count, MPI_Request *requests)
{
    int code = MPI_SUCCESS;

    rvmc_check_begin("MPI_Startall", RVMC_BEHIND);
    if (count < 0)
        code = MPI_Startall(count, requests);
    for (int i = 0; i < count && !code && !rvmc_told; i++)
        code = start("MPI_Startall", RVMC_BEHIND, requests + i);
    return rvmc_check_end(code);
}
