/* check_messages.c: sends and receives under --check. Each message has a head before its data: which elements it has, and
   the call that sent it. So a receive can tell what was sent where, also if it has no room for all of it. */
#include <string.h>
#include "checked.h"
#include "group.h"
#include "layouts.h"

static const char *const senders[] = {
    "MPI_Send", "MPI_Ssend", "MPI_Bsend", "MPI_Rsend", "MPI_Isend", "MPI_Issend", "MPI_Ibsend", "MPI_Irsend", "MPI_Sendrecv",
    "MPI_Sendrecv_replace", "MPI_Isendrecv", "MPI_Isendrecv_replace", "MPI_Send_init", "MPI_Ssend_init", "MPI_Bsend_init",
    "MPI_Rsend_init",
};

static int number_of(const char *call)
{
    int n = sizeof senders / sizeof *senders;

    while (n > 1 && strcmp(senders[n - 1], call))
        n--;
    return n - 1;
}

/* Whether a message can have a head: else the call is MPI's own business, which tells what is wrong with the arguments. */
int rvmc_has_letter(const void *buffer, int count, MPI_Datatype type, int peer)
{
    struct rvmc_layout one = rvmc_measures(type);
    long all = count > 1 ? (count - 1) * (one.high - one.low) : 0, memory = RVMC_NUMBER(rvmc_memory);
    long first = (long)buffer + one.true_low + (all < 0 ? all : 0);

    if (peer == MPI_PROC_NULL || count < 0 || !one.committed || (!RVMC_SIZE_OF(type) && !rvmc_layout_of(type)))
        return 0;
    if (!count || !one.bytes)
        return 1;
    return first > 0 && first + one.true_high - one.true_low + (all < 0 ? -all : all) <= memory && count * one.bytes <= memory;
}

/* --- sending --- */

/* What is sent in the place of the program's buffer: a head and the data; or the buffer itself. */
struct packet {
    char *room;
    const void *bytes;
    int count;
    MPI_Datatype type;
};

/* How many messages this rank has sent to each rank of MPI_COMM_WORLD, and received of each. */
enum { MOST_RANKS = 8 };
static int sent[MOST_RANKS], received[MOST_RANKS];

void rvmc_write_letter(const struct rvmc_record *r)
{
    long elements = rvmc_type_elements(r->type, r->count), there = rvmc_there(r->communicator, r->peer);
    struct rvmc_letter head = {RVMC_LETTER_MARK, rvmc_type_hash(r->type, r->count, elements), (unsigned)elements,
                             (unsigned)r->size, r->behind, (unsigned char)number_of(r->call), (unsigned char)rvmc_rank, 0,
                             (unsigned)r->type, (unsigned)r->count};

    if (there >= 0 && there < MOST_RANKS)
        sent[there]++;
    memcpy(r->room, &head, RVMC_LETTER);
    rvmc_type_pack(r->room + RVMC_LETTER, r->buffer, r->count, r->type);
}

static struct packet packet_of(const char *call, unsigned behind, const void *buffer, int count, MPI_Datatype type, int dest,
                               MPI_Comm c)
{
    struct packet plain = {0, buffer, count, type};
    struct rvmc_record r = {.call = call, .behind = behind, .peer = dest, .communicator = c, .buffer = (void *)buffer,
                            .count = count, .type = type};

    rvmc_check_communicator(call, behind, c);
    if (!rvmc_has_letter(buffer, count, type, dest))
        return plain;
    rvmc_check_buffer(call, behind, buffer, count, type, 0);
    r.size = count * rvmc_type_seen(type).size;
    r.room = rvmc_check_take(r.size + RVMC_LETTER);
    if (!r.room)
        return plain;
    rvmc_write_letter(&r);
    return (struct packet){r.room, r.room, (int)r.size + RVMC_LETTER, MPI_BYTE};
}

#define SENDS(name) \
    int rvmc_checked_##name(const void *buffer, int count, MPI_Datatype type, int dest, int tag, MPI_Comm c) \
    { \
        struct packet p; \
        int code = MPI_SUCCESS; \
        \
        rvmc_check_begin("MPI_" #name, RVMC_BEHIND); \
        p = packet_of("MPI_" #name, RVMC_BEHIND, buffer, count, type, dest, c); \
        if (!rvmc_told) \
            code = MPI_##name(p.bytes, p.count, p.type, dest, tag, c); \
        rvmc_check_give_back(p.room); \
        return rvmc_check_end(code); \
    }
SENDS(Send)
SENDS(Ssend)
SENDS(Rsend)

/* A request of a send: the machine has copied the data, and the program may not write its buffer none the less. */
static void open_send(const char *call, unsigned behind, const void *buffer, int count, MPI_Datatype type,
                      MPI_Request *request, MPI_Request raw)
{
    struct rvmc_record *r = rvmc_record_new(call, behind, RVMC_IS_SEND | RVMC_IS_ACTIVE);

    *request = raw;
    if (!r)
        return;
    r->buffer = (void *)buffer;
    r->count = count;
    r->type = type;
    rvmc_record_open(r, request, raw);
}

#define STARTS_SEND(name) \
    int rvmc_checked_##name(const void *buffer, int count, MPI_Datatype type, int dest, int tag, MPI_Comm c, \
                            MPI_Request *request) \
    { \
        MPI_Request raw = MPI_REQUEST_NULL; \
        struct packet p; \
        int code = MPI_SUCCESS; \
        \
        rvmc_check_begin("MPI_" #name, RVMC_BEHIND); \
        rvmc_variable_lost("MPI_" #name, RVMC_BEHIND, request); \
        p = packet_of("MPI_" #name, RVMC_BEHIND, buffer, count, type, dest, c); \
        if (!rvmc_told) \
            code = MPI_##name(p.bytes, p.count, p.type, dest, tag, c, &raw); \
        rvmc_check_give_back(p.room); \
        *request = MPI_REQUEST_NULL; \
        if (raw != MPI_REQUEST_NULL) \
            open_send("MPI_" #name, RVMC_BEHIND, buffer, count, type, request, raw); \
        return rvmc_check_end(code); \
    }
STARTS_SEND(Isend)
STARTS_SEND(Issend)
STARTS_SEND(Irsend)

/* The attached buffer needs no room for a head. */
void rvmc_lend_room(int bytes)
{
    if (rvmc_buffer_size >= 0)
        rvmc_buffer_size += bytes;
}

/* Where it has no room for the data, MPI's own call says so. */
static struct packet with_room(struct packet p, const void *buffer, int count, MPI_Datatype type)
{
    if (!p.room || p.count - RVMC_LETTER + MPI_BSEND_OVERHEAD <= rvmc_buffer_size)
        return p;
    rvmc_check_give_back(p.room);
    return (struct packet){0, buffer, count, type};
}

int rvmc_checked_Bsend(const void *buffer, int count, MPI_Datatype type, int dest, int tag, MPI_Comm c)
{
    struct packet p;
    int code = MPI_SUCCESS, lent;

    rvmc_check_begin("MPI_Bsend", RVMC_BEHIND);
    p = with_room(packet_of("MPI_Bsend", RVMC_BEHIND, buffer, count, type, dest, c), buffer, count, type);
    lent = p.room ? RVMC_LETTER : 0;
    rvmc_lend_room(lent);
    if (!rvmc_told)
        code = MPI_Bsend(p.bytes, p.count, p.type, dest, tag, c);
    rvmc_lend_room(-lent);
    rvmc_check_give_back(p.room);
    return rvmc_check_end(code);
}

int rvmc_checked_Ibsend(const void *buffer, int count, MPI_Datatype type, int dest, int tag, MPI_Comm c, MPI_Request *request)
{
    MPI_Request raw = MPI_REQUEST_NULL;
    struct packet p;
    int code = MPI_SUCCESS, lent;

    rvmc_check_begin("MPI_Ibsend", RVMC_BEHIND);
    rvmc_variable_lost("MPI_Ibsend", RVMC_BEHIND, request);
    p = with_room(packet_of("MPI_Ibsend", RVMC_BEHIND, buffer, count, type, dest, c), buffer, count, type);
    lent = p.room ? RVMC_LETTER : 0;
    rvmc_lend_room(lent);
    if (!rvmc_told)
        code = MPI_Ibsend(p.bytes, p.count, p.type, dest, tag, c, &raw);
    rvmc_lend_room(-lent);
    rvmc_check_give_back(p.room);
    *request = MPI_REQUEST_NULL;
    if (raw != MPI_REQUEST_NULL)
        open_send("MPI_Ibsend", RVMC_BEHIND, buffer, count, type, request, raw);
    return rvmc_check_end(code);
}

/* --- what was sent against what it is received as --- */

void rvmc_without_head(MPI_Status *status)
{
    int bytes = 0;

    MPI_Get_count(status, MPI_BYTE, &bytes);
    if (bytes >= RVMC_LETTER)
        MPI_Status_set_elements(status, MPI_BYTE, bytes - RVMC_LETTER);
}

/* The handler decides what a truncated message is: an error that is told, or a code that the program looks at. */
static int errors_return(MPI_Comm c)
{
    MPI_Errhandler handler = MPI_ERRORS_ARE_FATAL;

    MPI_Comm_get_errhandler(c, &handler);
    return handler != MPI_ERRORS_ARE_FATAL && handler != MPI_ERRORS_ABORT;
}

/* How a receive, or a send, names its elements: 3 MPI_INT. */
static const char *sent_type(const struct rvmc_letter *head)
{
    return rvmc_type_said((MPI_Datatype)head->type);
}

static int fits(const struct rvmc_letter *head, const struct rvmc_record *r)
{
    long mine = rvmc_type_elements(r->type, r->count);

    if ((MPI_Datatype)head->type == MPI_PACKED || r->type == MPI_PACKED || !head->elements)
        return 1;
    if (head->elements > mine)
        return 0;
    return rvmc_type_hash(r->type, r->count, head->elements) == head->hash;
}

/* Both names of a receive: where it was posted, and where it is completed. */
static void tell_difference(unsigned behind, const struct rvmc_record *r, const struct rvmc_letter *head, int source,
                            const char *what)
{
    RVMC_TELL(behind, head->behind, "%s %s %d %s, but rank %d sent %d %s by %s", rvmc_check_call(r->call, r->behind), what,
              (long)r->count, rvmc_type_said(r->type), (long)source, (long)head->count, sent_type(head),
              rvmc_check_call(senders[head->call % (sizeof senders / sizeof *senders)], head->behind));
}

/* Delivers what a receive has got: the data to the program's buffer, and its number of bytes to the status. Returns the
   code. */
long rvmc_delivered(unsigned behind, const struct rvmc_record *r, MPI_Status *status, long code)
{
    struct rvmc_letter head;
    int got = 0;

    if (code && code != RVMC_TRUNCATED)
        return code;
    MPI_Get_count(status, MPI_BYTE, &got);
    memcpy(&head, r->room, RVMC_LETTER);
    if (got < RVMC_LETTER || head.mark != RVMC_LETTER_MARK) {
        rvmc_type_unpack(r->buffer, r->room, got, r->count, r->type);
        return code;
    }
    received[head.sender % MOST_RANKS]++;
    rvmc_without_head(status);
    rvmc_type_unpack(r->buffer, r->room + RVMC_LETTER, got - RVMC_LETTER, r->count, r->type);
    if (code == RVMC_TRUNCATED && !errors_return(r->communicator)) {
        tell_difference(behind, r, &head, status->MPI_SOURCE, "has room for");
        return RVMC_OK;
    }
    if (!code && !fits(&head, r))
        tell_difference(behind, r, &head, status->MPI_SOURCE, "receives");
    return code;
}

/* --- receiving --- */

/* A receive with room for a head before the data; none where MPI has to tell what is wrong with the arguments. */
static struct rvmc_record receive_of(const char *call, unsigned behind, void *buffer, int count, MPI_Datatype type, int source,
                                     int tag, MPI_Comm c)
{
    struct rvmc_record r = {.call = call, .behind = behind, .kind = RVMC_IS_RECEIVE | RVMC_IS_ACTIVE, .peer = source,
                            .tag = tag, .communicator = c, .buffer = buffer, .count = count, .type = type};

    rvmc_check_communicator(call, behind, c);
    if (!rvmc_has_letter(buffer, count, type, source))
        return r;
    rvmc_check_buffer(call, behind, buffer, count, type, 1);
    r.size = count * rvmc_type_seen(type).size;
    r.room = rvmc_check_take(r.size + RVMC_LETTER);
    return r;
}

/* A receive that waits. */
static long receive(struct rvmc_record *r, MPI_Status *status)
{
    MPI_Status own;
    long code = RVMC_OK;

    if (!rvmc_told)
        code = rvmc_receive(r->room, r->size + RVMC_LETTER, r->peer, r->tag, r->communicator, &own);
    if (!rvmc_told)
        code = rvmc_delivered(r->behind, r, &own, code);
    if (status && !rvmc_told)
        *status = own;
    rvmc_check_give_back(r->room);
    return code;
}

int rvmc_checked_Recv(void *buffer, int count, MPI_Datatype type, int source, int tag, MPI_Comm c, MPI_Status *status)
{
    struct rvmc_record r;
    long code;

    rvmc_check_begin("MPI_Recv", RVMC_BEHIND);
    source = rvmc_source_of(source);
    r = receive_of("MPI_Recv", RVMC_BEHIND, buffer, count, type, source, tag, c);
    if (!r.room)
        return rvmc_check_end(MPI_Recv(buffer, count, type, source, tag, c, status));
    code = receive(&r, status);
    return rvmc_check_end(rvmc_code("MPI_Recv", code, RVMC_SOURCE, buffer, count, type, source, tag, c));
}

static int open_receive(struct rvmc_record *r, MPI_Request *request, MPI_Request raw)
{
    struct rvmc_record *record = rvmc_record_new(r->call, r->behind, r->kind);

    *request = raw;
    if (!record)
        return 0;
    *record = *r;
    rvmc_record_open(record, request, raw);
    return 1;
}

int rvmc_checked_Irecv(void *buffer, int count, MPI_Datatype type, int source, int tag, MPI_Comm c, MPI_Request *request)
{
    MPI_Request raw = MPI_REQUEST_NULL;
    struct rvmc_record r;
    int code = MPI_SUCCESS;

    rvmc_check_begin("MPI_Irecv", RVMC_BEHIND);
    source = rvmc_source_of(source);
    rvmc_variable_lost("MPI_Irecv", RVMC_BEHIND, request);
    r = receive_of("MPI_Irecv", RVMC_BEHIND, buffer, count, type, source, tag, c);
    if (!rvmc_told && !r.room)
        code = MPI_Irecv(buffer, count, type, source, tag, c, &raw);
    else if (!rvmc_told)
        code = MPI_Irecv(r.room, (int)r.size + RVMC_LETTER, MPI_BYTE, source, tag, c, &raw);
    *request = MPI_REQUEST_NULL;
    if (raw == MPI_REQUEST_NULL || !open_receive(&r, request, raw))
        rvmc_check_give_back(r.room);
    return rvmc_check_end(code);
}

/* --- both at once --- */

/* A half for no process has no message, and so none with a head. Where another has none, MPI's own call says why. */
static int have_heads(const struct packet *p, int dest, const struct rvmc_record *r)
{
    return (p->room || dest == MPI_PROC_NULL) && (r->room || r->peer == MPI_PROC_NULL);
}

static long send_half(const struct packet *p, int dest, int tag, MPI_Comm c)
{
    return rvmc_own_send(p->room, p->room ? p->count : 0, dest, tag, c);
}

static long receive_half(struct rvmc_record *r, MPI_Status *status)
{
    if (r->room)
        return receive(r, status);
    return rvmc_receive(0, 0, r->peer, r->tag, r->communicator, status);
}

int rvmc_checked_Sendrecv(const void *out, int out_count, MPI_Datatype out_type, int dest, int out_tag, void *in, int in_count,
                          MPI_Datatype in_type, int source, int in_tag, MPI_Comm c, MPI_Status *status)
{
    static const char call[] = "MPI_Sendrecv";
    struct packet p;
    struct rvmc_record r;
    long code;

    rvmc_check_begin(call, RVMC_BEHIND);
    source = rvmc_source_of(source);
    p = packet_of(call, RVMC_BEHIND, out, out_count, out_type, dest, c);
    r = receive_of(call, RVMC_BEHIND, in, in_count, in_type, source, in_tag, c);
    rvmc_check_apart(call, RVMC_BEHIND, out, out_count, out_type, in, in_count, in_type);
    if (rvmc_told)
        return rvmc_check_end(MPI_SUCCESS);
    if (!have_heads(&p, dest, &r))
        return rvmc_check_end(MPI_Sendrecv(out, out_count, out_type, dest, out_tag, in, in_count, in_type, source, in_tag, c,
                                           status));
    code = send_half(&p, dest, out_tag, c);
    rvmc_check_give_back(p.room);
    if (code)
        return rvmc_check_end(rvmc_code(call, code, RVMC_OUT, out, out_count, out_type, dest, out_tag, c));
    code = receive_half(&r, status);
    return rvmc_check_end(rvmc_code(call, code, RVMC_IN + RVMC_SOURCE, in, in_count, in_type, source, in_tag, c));
}

int rvmc_checked_Sendrecv_replace(void *buffer, int count, MPI_Datatype type, int dest, int out_tag, int source, int in_tag,
                                  MPI_Comm c, MPI_Status *status)
{
    static const char call[] = "MPI_Sendrecv_replace";
    struct packet p;
    struct rvmc_record r;
    long code;

    rvmc_check_begin(call, RVMC_BEHIND);
    source = rvmc_source_of(source);
    p = packet_of(call, RVMC_BEHIND, buffer, count, type, dest, c);
    r = receive_of(call, RVMC_BEHIND, buffer, count, type, source, in_tag, c);
    if (rvmc_told)
        return rvmc_check_end(MPI_SUCCESS);
    if (!have_heads(&p, dest, &r))
        return rvmc_check_end(MPI_Sendrecv_replace(buffer, count, type, dest, out_tag, source, in_tag, c, status));
    code = send_half(&p, dest, out_tag, c);
    rvmc_check_give_back(p.room);
    if (code)
        return rvmc_check_end(rvmc_code(call, code, 0, buffer, count, type, dest, out_tag, c));
    code = receive_half(&r, status);
    return rvmc_check_end(rvmc_code(call, code, RVMC_SOURCE, buffer, count, type, source, in_tag, c));
}

/* The request of the receive; the send is complete at once, as mpi.h has it. */
static long post_half(struct rvmc_record *r, MPI_Request *request)
{
    MPI_Request raw = MPI_REQUEST_NULL;
    long code = rvmc_posted(r->room, r->room ? r->size + RVMC_LETTER : 0, r->peer, r->tag, r->communicator, &raw);

    if (raw == MPI_REQUEST_NULL || !open_receive(r, request, raw))
        rvmc_check_give_back(r->room);
    return code;
}

int rvmc_checked_Isendrecv(const void *out, int out_count, MPI_Datatype out_type, int dest, int out_tag, void *in, int in_count,
                           MPI_Datatype in_type, int source, int in_tag, MPI_Comm c, MPI_Request *request)
{
    static const char call[] = "MPI_Isendrecv";
    struct packet p;
    struct rvmc_record r;
    long code;

    rvmc_check_begin(call, RVMC_BEHIND);
    source = rvmc_source_of(source);
    rvmc_variable_lost(call, RVMC_BEHIND, request);
    p = packet_of(call, RVMC_BEHIND, out, out_count, out_type, dest, c);
    r = receive_of(call, RVMC_BEHIND, in, in_count, in_type, source, in_tag, c);
    rvmc_check_apart(call, RVMC_BEHIND, out, out_count, out_type, in, in_count, in_type);
    *request = MPI_REQUEST_NULL;
    if (rvmc_told)
        return rvmc_check_end(MPI_SUCCESS);
    if (!have_heads(&p, dest, &r))
        return rvmc_check_end(MPI_Isendrecv(out, out_count, out_type, dest, out_tag, in, in_count, in_type, source, in_tag, c,
                                            request));
    code = send_half(&p, dest, out_tag, c);
    rvmc_check_give_back(p.room);
    if (code)
        return rvmc_check_end(rvmc_code(call, code, RVMC_OUT, out, out_count, out_type, dest, out_tag, c));
    code = post_half(&r, request);
    return rvmc_check_end(rvmc_code(call, code, RVMC_IN + RVMC_SOURCE, in, in_count, in_type, source, in_tag, c));
}

int rvmc_checked_Isendrecv_replace(void *buffer, int count, MPI_Datatype type, int dest, int out_tag, int source, int in_tag,
                                   MPI_Comm c, MPI_Request *request)
{
    static const char call[] = "MPI_Isendrecv_replace";
    struct packet p;
    struct rvmc_record r;
    long code;

    rvmc_check_begin(call, RVMC_BEHIND);
    source = rvmc_source_of(source);
    rvmc_variable_lost(call, RVMC_BEHIND, request);
    p = packet_of(call, RVMC_BEHIND, buffer, count, type, dest, c);
    r = receive_of(call, RVMC_BEHIND, buffer, count, type, source, in_tag, c);
    *request = MPI_REQUEST_NULL;
    if (rvmc_told)
        return rvmc_check_end(MPI_SUCCESS);
    if (!have_heads(&p, dest, &r))
        return rvmc_check_end(MPI_Isendrecv_replace(buffer, count, type, dest, out_tag, source, in_tag, c, request));
    code = send_half(&p, dest, out_tag, c);
    rvmc_check_give_back(p.room);
    if (code)
        return rvmc_check_end(rvmc_code(call, code, 0, buffer, count, type, dest, out_tag, c));
    code = post_half(&r, request);
    return rvmc_check_end(rvmc_code(call, code, RVMC_SOURCE, buffer, count, type, source, in_tag, c));
}

/* --- probes (3.8) --- */

int rvmc_checked_Probe(int source, int tag, MPI_Comm c, MPI_Status *status)
{
    MPI_Status own;
    int code;

    rvmc_check_begin("MPI_Probe", RVMC_BEHIND);
    source = rvmc_source_of(source);
    rvmc_check_communicator("MPI_Probe", RVMC_BEHIND, c);
    code = MPI_Probe(source, tag, c, &own);
    if (!code && source != MPI_PROC_NULL)
        rvmc_without_head(&own);
    if (!code && status)
        *status = own;
    return rvmc_check_end(code);
}

int rvmc_checked_Iprobe(int source, int tag, MPI_Comm c, int *flag, MPI_Status *status)
{
    MPI_Status own;
    int code;

    rvmc_check_begin("MPI_Iprobe", RVMC_BEHIND);
    source = rvmc_source_of(source);
    rvmc_check_communicator("MPI_Iprobe", RVMC_BEHIND, c);
    code = MPI_Iprobe(source, tag, c, flag, &own);
    if (!code && *flag && source != MPI_PROC_NULL)
        rvmc_without_head(&own);
    if (!code && *flag && status)
        *status = own;
    return rvmc_check_end(code);
}

int rvmc_checked_Mprobe(int source, int tag, MPI_Comm c, MPI_Message *message, MPI_Status *status)
{
    MPI_Status own;
    int code;

    rvmc_check_begin("MPI_Mprobe", RVMC_BEHIND);
    source = rvmc_source_of(source);
    rvmc_check_communicator("MPI_Mprobe", RVMC_BEHIND, c);
    code = MPI_Mprobe(source, tag, c, message, &own);
    if (!code && source != MPI_PROC_NULL)
        rvmc_without_head(&own);
    if (!code && status)
        *status = own;
    return rvmc_check_end(code);
}

int rvmc_checked_Improbe(int source, int tag, MPI_Comm c, int *flag, MPI_Message *message, MPI_Status *status)
{
    MPI_Status own;
    int code;

    rvmc_check_begin("MPI_Improbe", RVMC_BEHIND);
    source = rvmc_source_of(source);
    rvmc_check_communicator("MPI_Improbe", RVMC_BEHIND, c);
    code = MPI_Improbe(source, tag, c, flag, message, &own);
    if (!code && *flag && source != MPI_PROC_NULL)
        rvmc_without_head(&own);
    if (!code && *flag && status)
        *status = own;
    return rvmc_check_end(code);
}

/* A message that was probed for has a source, which the status tells; that of no process has no head. */
int rvmc_checked_Mrecv(void *buffer, int count, MPI_Datatype type, MPI_Message *message, MPI_Status *status)
{
    int nobody = *message == MPI_MESSAGE_NO_PROC || *message == MPI_MESSAGE_NULL, code = MPI_SUCCESS;
    struct rvmc_record r;
    MPI_Status own;

    rvmc_check_begin("MPI_Mrecv", RVMC_BEHIND);
    r = receive_of("MPI_Mrecv", RVMC_BEHIND, buffer, count, type, nobody ? MPI_PROC_NULL : 0, 0, MPI_COMM_WORLD);
    if (!r.room)
        return rvmc_check_end(MPI_Mrecv(buffer, count, type, message, status));
    if (!rvmc_told)
        code = MPI_Mrecv(r.room, (int)r.size + RVMC_LETTER, MPI_BYTE, message, &own);
    if (!rvmc_told && !code)
        rvmc_delivered(RVMC_BEHIND, &r, &own, RVMC_OK);
    if (status)
        *status = own;
    rvmc_check_give_back(r.room);
    return rvmc_check_end(code);
}

int rvmc_checked_Imrecv(void *buffer, int count, MPI_Datatype type, MPI_Message *message, MPI_Request *request)
{
    int nobody = *message == MPI_MESSAGE_NO_PROC || *message == MPI_MESSAGE_NULL, code = MPI_SUCCESS;
    MPI_Request raw = MPI_REQUEST_NULL;
    struct rvmc_record r;

    rvmc_check_begin("MPI_Imrecv", RVMC_BEHIND);
    rvmc_variable_lost("MPI_Imrecv", RVMC_BEHIND, request);
    r = receive_of("MPI_Imrecv", RVMC_BEHIND, buffer, count, type, nobody ? MPI_PROC_NULL : 0, 0, MPI_COMM_WORLD);
    if (!rvmc_told && !r.room)
        code = MPI_Imrecv(buffer, count, type, message, &raw);
    else if (!rvmc_told)
        code = MPI_Imrecv(r.room, (int)r.size + RVMC_LETTER, MPI_BYTE, message, &raw);
    *request = MPI_REQUEST_NULL;
    if (raw == MPI_REQUEST_NULL || !open_receive(&r, request, raw))
        rvmc_check_give_back(r.room);
    return rvmc_check_end(code);
}

/* --- the end --- */

/* Receives what nobody has received in a communicator, and tells who sent it. Behind a barrier of all ranks. */
static void look_for_messages(unsigned behind, MPI_Comm c)
{
    MPI_Message message;
    MPI_Status status;
    int flag = 1, bytes;

    while (!MPI_Improbe(MPI_ANY_SOURCE, MPI_ANY_TAG, c, &flag, &message, &status) && flag) {
        struct rvmc_letter head = {0};
        char *room;

        MPI_Get_count(&status, MPI_BYTE, &bytes);
        room = rvmc_check_take(bytes + RVMC_LETTER);
        if (!room)
            return;
        MPI_Mrecv(room, bytes, MPI_BYTE, &message, &status);
        if (bytes >= RVMC_LETTER)
            memcpy(&head, room, RVMC_LETTER);
        rvmc_check_give_back(room);
        if (head.mark == RVMC_LETTER_MARK)
            RVMC_TELL(behind, head.behind, "%s: nobody received %d %s with tag %d, which rank %d sent by %s",
                      rvmc_check_call("MPI_Finalize", behind), (long)head.count, sent_type(&head), (long)status.MPI_TAG,
                      (long)head.sender,
                      rvmc_check_call(senders[head.call % (sizeof senders / sizeof *senders)], head.behind));
    }
}

/* Nobody polls for what isn't there: each rank tells each other one how many messages it has sent it, and whoever has received
   as many looks for none. So a search of all schedules has no states of this. A rank that has left without MPI_Finalize tells no
   number, and counts as one with a message more. */
int rvmc_all_received(struct group *g)
{
    int all = sent[g->me] == received[g->me];

    for (int r = 0; r < g->size; r++)
        if (r != g->me)
            give(g, &sent[r], 1, MPI_INT, r);
    for (int r = 0; r < g->size; r++) {
        int count = -1;

        if (r == g->me)
            continue;
        take(g, &count, 1, MPI_INT, r);
        all &= count == received[r];
    }
    return all;
}

/* A communicator that was freed is looked through as one of all ranks: who frees it hasn't received what was sent there before, and
   every message has its receive (11.2.2). */
static void open_again(MPI_Comm c)
{
    rvmc_table[c].ranks = rvmc_table[c].places = 0x76543210;
    rvmc_table[c].me = (signed char)rvmc_rank;
    rvmc_table[c].size = MOST_RANKS;
}

void rvmc_messages_at_the_end(unsigned behind)
{
    for (MPI_Comm c = 0; c < RVMC_COMMUNICATORS; c++) {
        int rank;

        if (c > MPI_COMM_SELF && rvmc_table[c].context == c && !rvmc_table[c].size)
            open_again(c);
        if (!rvmc_asked_of(RVMC_RANK, c, &rank) && (c == MPI_COMM_WORLD || rvmc_table[c].context >= 0))
            look_for_messages(behind, c);
    }
}
