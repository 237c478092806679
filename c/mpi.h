/* mpi.h: the profile of MPI 4.1 that rvmc serves, under MPI's names.
   Calls between two ranks are inline, so that a place in a record is in the function that made the call. Collectives and
   calls that poll are functions of the library, declared in lib/declared.h. What isn't served doesn't compile, and says so
   (lib/lacks.h). docs/C.md has the table. */
#ifndef MPI_H
#define MPI_H
#define MPI_INCLUDED
#include "lib/call.h"
#include "lib/constants.h"
#include "lib/communicators.h"

/* What the library knows of a handle beside what the machine does: OWN is a request that the library completes by itself, KEPT
   a complete one whose status was asked for (lib/owners.c), ELSEWHERE a receive in another communicator than
   MPI_COMM_WORLD. */
enum {
    RVMC_PERSISTENT = 1, RVMC_PARTITIONED = 2, RVMC_LARGE = 4, RVMC_SENDER = 8, RVMC_ACTIVE = 16, RVMC_OWN = 32,
    RVMC_KEPT = 64, RVMC_ELSEWHERE = 128
};
struct rvmc_rest {
    char *buffer;
    long size;
    MPI_Comm communicator;
    int again, source, tag;                       /* of a message that was claimed: which rank's it is */
};
enum { RVMC_BEFORE, RVMC_BEGUN, RVMC_OVER };
extern int rvmc_state;
extern unsigned char rvmc_kinds[256];
extern struct rvmc_rest rvmc_rests[256];
extern void *rvmc_claims;

#include "lib/linked.h"

/* docs/C.md, Large messages: a message of 4,096 bytes or more is a first piece of 4,096 bytes and its rest. These speak of
   ranks of MPI_COMM_WORLD and of contexts (lib/communicators.h). */
rvmc_answer rvmc_give_rest(const void *buffer, long size, long dest, int tag, long context);
long rvmc_take_rest(const struct rvmc_rest *rest, MPI_Status *status, long code);
rvmc_answer rvmc_claim(long context, MPI_Message message, MPI_Status *status, int keep);
int rvmc_claimed(long source, int tag, long context, MPI_Message *message, MPI_Status *status);
long rvmc_claim_received(void *buffer, long size, MPI_Message message, MPI_Status *status);
rvmc_answer rvmc_claim_posted(void *buffer, long size, MPI_Message message);
rvmc_answer rvmc_large_send_init(const void *buffer, long size, long dest, int tag, long context);
void rvmc_large_freed(MPI_Request request);
void rvmc_freed(MPI_Request request, int kind);
long rvmc_let_go(MPI_Request request, int kind);
long rvmc_large_started(MPI_Request request);

/* --- errors (chapter 9) --- */

/* What isn't as it should be, of calls that name a communicator alone, of those with a buffer, of requests and of
   partitions. By default it is told, and the answer is 0: then the hart ends by a trap at the place of the call (9.3:
   MPI_ERRORS_ARE_FATAL). Else the answer is what the call returns. Beside the code stands of which argument it speaks: of
   a source, and of which half of MPI_Sendrecv. */
enum { RVMC_SOURCE = 256, RVMC_OUT = 512, RVMC_IN = 1024 };
int rvmc_wrong_comm(const char *call, long code, MPI_Comm c);
int rvmc_wrong(const char *call, long code, const void *buffer, long count, MPI_Datatype type, int peer, int tag, MPI_Comm c);
int rvmc_wrong_request(const char *call, long code, MPI_Request request);
int rvmc_wrong_parts(const char *call, long code, long parts, long size);

RVMC_INLINE int rvmc_trapped(int error)
{
    if (!error)
        __asm__ volatile("ebreak # told");
    return error;
}
RVMC_INLINE int rvmc_comm_code(const char *call, long code, MPI_Comm c)
{
    if (__builtin_expect(code == RVMC_OK, 1))
        return MPI_SUCCESS;
    return rvmc_trapped(rvmc_wrong_comm(call, code, c));
}
RVMC_INLINE int rvmc_code(const char *call, long code, int of, const void *buffer, long count, MPI_Datatype type, int peer,
                          int tag, MPI_Comm c)
{
    if (__builtin_expect(code == RVMC_OK, 1))
        return MPI_SUCCESS;
    return rvmc_trapped(rvmc_wrong(call, code + of, buffer, count, type, peer, tag, c));
}
RVMC_INLINE int rvmc_request_code(const char *call, long code, MPI_Request request)
{
    if (__builtin_expect(code == RVMC_OK, 1))
        return MPI_SUCCESS;
    return rvmc_trapped(rvmc_wrong_request(call, code, request));
}
RVMC_INLINE int rvmc_idle(void)
{
    return __builtin_expect(rvmc_state != RVMC_BEGUN, 0);
}
/* The machine refuses what is negative. */
RVMC_INLINE long rvmc_bytes(long count, MPI_Datatype type)
{
    return count < 0 || !RVMC_SIZE_OF(type) ? -1 : count * RVMC_SIZE_OF(type);
}
/* Whether a program made this datatype; then its data are packed before they are sent, and unpacked when they are there. */
RVMC_INLINE int rvmc_is_derived(MPI_Datatype type)
{
    return __builtin_expect(!RVMC_SIZE_OF(type), 0) && rvmc_derived.send;
}
RVMC_INLINE long rvmc_first(long size)
{
    return size < RVMC_PIECE ? size : RVMC_PIECE;
}
RVMC_INLINE int rvmc_kind(MPI_Request request)
{
    return request > 0 && request < 256 ? rvmc_kinds[request] : 0;
}

/* The communicator that the number-th --comm of rvmc-cc declares, from 1 on: it has the number-th context. */
RVMC_INLINE MPI_Comm rvmc_comm(int number)
{
    if (number == 0)
        return MPI_COMM_WORLD;
    return number > 0 && number <= RVMC_NUMBER(rvmc_communicators) ? MPI_COMM_SELF + number : MPI_COMM_NULL;
}
#define RVMC_COMM(number) rvmc_comm(number)

/* --- the environment (chapters 9 and 11) --- */

RVMC_INLINE int rvmc_begin_again(const char *call)
{
    if (rvmc_state != RVMC_BEFORE)
        return rvmc_comm_code(call, RVMC_BEGUN_TWICE, MPI_COMM_WORLD);
    rvmc_state = RVMC_BEGUN;
    return MPI_SUCCESS;
}
RVMC_INLINE int MPI_Init(int *argc, char ***argv)
{
    (void)argc;
    (void)argv;
    return rvmc_begin_again("MPI_Init");
}
RVMC_INLINE int MPI_Init_thread(int *argc, char ***argv, int required, int *provided)
{
    (void)argc;
    (void)argv;
    (void)required;
    *provided = MPI_THREAD_MULTIPLE;
    return rvmc_begin_again("MPI_Init_thread");
}
RVMC_INLINE int MPI_Query_thread(int *provided) { *provided = MPI_THREAD_MULTIPLE; return MPI_SUCCESS; }
RVMC_INLINE int MPI_Is_thread_main(int *flag) { *flag = rvmc_hart == 0; return MPI_SUCCESS; }
RVMC_INLINE int MPI_Initialized(int *flag) { *flag = rvmc_state != RVMC_BEFORE; return MPI_SUCCESS; }
RVMC_INLINE int MPI_Finalized(int *flag) { *flag = rvmc_state == RVMC_OVER; return MPI_SUCCESS; }
RVMC_INLINE int MPI_Finalize(void)
{
    if (rvmc_idle())
        return rvmc_comm_code("MPI_Finalize", RVMC_NOT_BEGUN, MPI_COMM_WORLD);
    if (rvmc_at_the_end)
        rvmc_at_the_end();
    rvmc_state = RVMC_OVER;
    return MPI_SUCCESS;
}
RVMC_INLINE int MPI_Get_version(int *version, int *subversion)
{
    *version = MPI_VERSION;
    *subversion = MPI_SUBVERSION;
    return MPI_SUCCESS;
}
RVMC_INLINE long rvmc_asked_of(long number, MPI_Comm c, int *value)
{
    rvmc_answer a;

    if (rvmc_idle())
        return RVMC_NOT_BEGUN;
    if (c != MPI_COMM_WORLD)
        return rvmc_asked_elsewhere(number, c, value);
    a = rvmc_call(number, c, 0, 0, 0, 0, 0);
    *value = (int)a.value;
    return a.code;
}
RVMC_INLINE int MPI_Comm_rank(MPI_Comm c, int *rank)
{
    return rvmc_comm_code("MPI_Comm_rank", rvmc_asked_of(RVMC_RANK, c, rank), c);
}
RVMC_INLINE int MPI_Comm_size(MPI_Comm c, int *size)
{
    return rvmc_comm_code("MPI_Comm_size", rvmc_asked_of(RVMC_SIZE, c, size), c);
}
RVMC_INLINE int MPI_Comm_test_inter(MPI_Comm c, int *flag)
{
    int size;
    long code = rvmc_asked_of(RVMC_SIZE, c, &size);

    *flag = 0;
    return rvmc_comm_code("MPI_Comm_test_inter", code, c);
}
RVMC_INLINE int MPI_Comm_get_parent(MPI_Comm *parent) { *parent = MPI_COMM_NULL; return MPI_SUCCESS; }
RVMC_INLINE int MPI_Pcontrol(const int level, ...) { (void)level; return MPI_SUCCESS; }

/* --- sending and receiving (3.2, 3.4) --- */

/* What MPI_Send, MPI_Isend and MPI_Send_init ask the machine for: a send that copies its bytes and returns. With rvmc-cc
   --unbuffered they wait for their receive, as MPI lets a standard send do. Where `rvmc explore` asks which ranks need
   buffers, it lets MPI_Send wait, and MPI_Wait and MPI_Waitall of the others. What else sends, in this file or in the library,
   never waits: it asks for RVMC_SEND and says so (rvmc_own_send, lib/call.h), or for RVMC_ISEND, and completes that by
   RVMC_TEST. */
#ifdef RVMC_UNBUFFERED
enum { RVMC_STANDARD_SEND = RVMC_SSEND, RVMC_STANDARD_ISEND = RVMC_ISSEND };
#else
enum { RVMC_STANDARD_SEND = RVMC_SEND, RVMC_STANDARD_ISEND = RVMC_ISEND };
#endif

/* Behind a null pointer the machine finds text, and would send that. */
RVMC_INLINE rvmc_answer rvmc_send_small(long number, const void *buffer, long size, long dest, int tag, long context)
{
    if (!buffer && size > 0)
        return (rvmc_answer){RVMC_BAD_BUFFER, 0};
    return rvmc_call(number, (long)buffer, size, dest, tag, context, 0);
}
RVMC_INLINE rvmc_answer rvmc_send(long number, const void *buffer, long size, int dest, int tag, MPI_Comm c)
{
    rvmc_answer first;
    long there, context;

    if (rvmc_idle())
        return (rvmc_answer){RVMC_NOT_BEGUN, 0};
    there = rvmc_there(c, dest);
    context = rvmc_context(c);
    if (size < RVMC_PIECE)
        return rvmc_send_small(number, buffer, size, there, tag, context);
    first = rvmc_give_rest(buffer, size, there, tag, context);
    return first.code ? first : rvmc_call(number, first.value, RVMC_PIECE, there, tag, context, 0);
}
/* A SEND that isn't the program's MPI_Send. It is a function of its own so that MPI_Send pays nothing for the word in a5. */
RVMC_INLINE long rvmc_own_send(const void *buffer, long size, int dest, int tag, MPI_Comm c)
{
    rvmc_answer first = {!buffer && size > 0 ? RVMC_BAD_BUFFER : RVMC_OK, (long)buffer};
    long there, context;

    if (rvmc_idle())
        return RVMC_NOT_BEGUN;
    there = rvmc_there(c, dest);
    context = rvmc_context(c);
    if (size >= RVMC_PIECE)
        first = rvmc_give_rest(buffer, size, there, tag, context);
    if (first.code)
        return first.code;
    return rvmc_call(RVMC_SEND, first.value, rvmc_first(size), there, tag, context, RVMC_IS_BUFFERED).code;
}
RVMC_INLINE long rvmc_receive(void *buffer, long size, int source, int tag, MPI_Comm c, MPI_Status *status)
{
    struct rvmc_rest rest = {buffer, size, c, 0, 0, 0};
    MPI_Message message;
    MPI_Status own, *where = status || size < RVMC_PIECE ? status : &own;
    long code, there, context;

    if (rvmc_idle())
        return RVMC_NOT_BEGUN;
    there = rvmc_there(c, source);
    context = rvmc_context(c);
    if (__builtin_expect(rvmc_claims != 0, 0) && rvmc_claimed(there, tag, context, &message, 0))
        return rvmc_arrived(rvmc_claim_received(buffer, size, message, status), c, status);
    code = rvmc_call(RVMC_RECV, (long)buffer, rvmc_first(size), there, tag, context, (long)where).code;
    return rvmc_arrived(size < RVMC_PIECE ? code : rvmc_take_rest(&rest, where, code), c, status);
}
RVMC_INLINE int MPI_Send(const void *buffer, int count, MPI_Datatype type, int dest, int tag, MPI_Comm c)
{
    long code;

    if (rvmc_is_derived(type))
        return rvmc_derived.send("MPI_Send", RVMC_STANDARD_SEND, 0, buffer, count, type, dest, tag, c, 0);
    code = rvmc_send(RVMC_STANDARD_SEND, buffer, rvmc_bytes(count, type), dest, tag, c).code;
    return rvmc_code("MPI_Send", code, 0, buffer, count, type, dest, tag, c);
}
RVMC_INLINE int MPI_Ssend(const void *buffer, int count, MPI_Datatype type, int dest, int tag, MPI_Comm c)
{
    long code;

    if (rvmc_is_derived(type))
        return rvmc_derived.send("MPI_Ssend", RVMC_SSEND, 0, buffer, count, type, dest, tag, c, 0);
    code = rvmc_send(RVMC_SSEND, buffer, rvmc_bytes(count, type), dest, tag, c).code;
    return rvmc_code("MPI_Ssend", code, 0, buffer, count, type, dest, tag, c);
}
RVMC_INLINE int MPI_Recv(void *buffer, int count, MPI_Datatype type, int source, int tag, MPI_Comm c, MPI_Status *status)
{
    long code;

    if (rvmc_is_derived(type))
        return rvmc_derived.receive("MPI_Recv", RVMC_RECV, 0, buffer, count, type, source, tag, c, status, 0);
    code = rvmc_receive(buffer, rvmc_bytes(count, type), source, tag, c, status);
    return rvmc_code("MPI_Recv", code, RVMC_SOURCE, buffer, count, type, source, tag, c);
}
/* A send of the machine copies its bytes and returns, so sending first and receiving then waits for nobody (3.10). */
RVMC_INLINE int MPI_Sendrecv(const void *out, int out_count, MPI_Datatype out_type, int dest, int out_tag, void *in,
                             int in_count, MPI_Datatype in_type, int source, int in_tag, MPI_Comm c, MPI_Status *status)
{
    long code;

    if (rvmc_is_derived(out_type) || rvmc_is_derived(in_type)) {
        int error = rvmc_derived.send("MPI_Sendrecv", RVMC_OWN_SEND, RVMC_OUT, out, out_count, out_type, dest, out_tag, c,
                                       0);

        return error ? error : rvmc_derived.receive("MPI_Sendrecv", RVMC_RECV, RVMC_IN, in, in_count, in_type, source, in_tag,
                                                    c, status, 0);
    }
    code = rvmc_own_send(out, rvmc_bytes(out_count, out_type), dest, out_tag, c);
    if (code)
        return rvmc_code("MPI_Sendrecv", code, RVMC_OUT, out, out_count, out_type, dest, out_tag, c);
    code = rvmc_receive(in, rvmc_bytes(in_count, in_type), source, in_tag, c, status);
    return rvmc_code("MPI_Sendrecv", code, RVMC_IN + RVMC_SOURCE, in, in_count, in_type, source, in_tag, c);
}
RVMC_INLINE int MPI_Sendrecv_replace(void *buffer, int count, MPI_Datatype type, int dest, int out_tag, int source,
                                     int in_tag, MPI_Comm c, MPI_Status *status)
{
    long code;

    if (rvmc_is_derived(type)) {
        int error = rvmc_derived.send("MPI_Sendrecv_replace", RVMC_OWN_SEND, 0, buffer, count, type, dest, out_tag, c, 0);

        return error ? error : rvmc_derived.receive("MPI_Sendrecv_replace", RVMC_RECV, 0, buffer, count, type, source, in_tag,
                                                    c, status, 0);
    }
    code = rvmc_own_send(buffer, rvmc_bytes(count, type), dest, out_tag, c);
    if (code)
        return rvmc_code("MPI_Sendrecv_replace", code, 0, buffer, count, type, dest, out_tag, c);
    code = rvmc_receive(buffer, rvmc_bytes(count, type), source, in_tag, c, status);
    return rvmc_code("MPI_Sendrecv_replace", code, RVMC_SOURCE, buffer, count, type, source, in_tag, c);
}

/* --- requests (3.7) --- */

RVMC_INLINE long rvmc_made(rvmc_answer a, MPI_Request *request, int kind)
{
    *request = a.code ? MPI_REQUEST_NULL : a.value;
    if (!a.code)
        rvmc_kinds[a.value & 255] = (unsigned char)kind;
    return a.code;
}
/* What is noted of a receive in another communicator than MPI_COMM_WORLD. */
RVMC_INLINE int rvmc_elsewhere(MPI_Comm c, MPI_Request request)
{
    if (c == MPI_COMM_WORLD)
        return 0;
    rvmc_rests[request & 255].communicator = c;
    rvmc_opened(c);
    return RVMC_ELSEWHERE;
}
RVMC_INLINE long rvmc_made_receive(rvmc_answer a, void *buffer, long size, MPI_Comm c, int kind, MPI_Request *request)
{
    if (size >= RVMC_PIECE && !a.code) {
        rvmc_rests[a.value & 255] = (struct rvmc_rest){buffer, size, c, 0, 0, 0};
        kind |= RVMC_LARGE;
    }
    return rvmc_made(a, request, a.code ? kind : kind | rvmc_elsewhere(c, a.value));
}
RVMC_INLINE int MPI_Isend(const void *buffer, int count, MPI_Datatype type, int dest, int tag, MPI_Comm c,
                          MPI_Request *request)
{
    long code;

    if (rvmc_is_derived(type))
        return rvmc_derived.send("MPI_Isend", RVMC_STANDARD_ISEND, 0, buffer, count, type, dest, tag, c, request);
    code = rvmc_made(rvmc_send(RVMC_STANDARD_ISEND, buffer, rvmc_bytes(count, type), dest, tag, c), request, RVMC_SENDER);
    return rvmc_code("MPI_Isend", code, 0, buffer, count, type, dest, tag, c);
}
RVMC_INLINE int MPI_Issend(const void *buffer, int count, MPI_Datatype type, int dest, int tag, MPI_Comm c,
                           MPI_Request *request)
{
    long code;

    if (rvmc_is_derived(type))
        return rvmc_derived.send("MPI_Issend", RVMC_ISSEND, 0, buffer, count, type, dest, tag, c, request);
    code = rvmc_made(rvmc_send(RVMC_ISSEND, buffer, rvmc_bytes(count, type), dest, tag, c), request, RVMC_SENDER);
    return rvmc_code("MPI_Issend", code, 0, buffer, count, type, dest, tag, c);
}
RVMC_INLINE long rvmc_posted_claim(void *buffer, long size, MPI_Message message, MPI_Comm c, MPI_Request *request)
{
    rvmc_answer a = rvmc_claim_posted(buffer, size, message);

    *request = a.code ? MPI_REQUEST_NULL : a.value;
    if (!a.code && c != MPI_COMM_WORLD)
        rvmc_kinds[a.value & 255] |= rvmc_elsewhere(c, a.value);
    return a.code;
}
RVMC_INLINE long rvmc_posted(void *buffer, long size, int source, int tag, MPI_Comm c, MPI_Request *request)
{
    MPI_Message message;
    rvmc_answer a = {RVMC_NOT_BEGUN, 0};
    long there, context;

    *request = MPI_REQUEST_NULL;
    if (rvmc_idle())
        return a.code;
    there = rvmc_there(c, source);
    context = rvmc_context(c);
    if (__builtin_expect(rvmc_claims != 0, 0) && rvmc_claimed(there, tag, context, &message, 0))
        return rvmc_posted_claim(buffer, size, message, c, request);
    a = rvmc_call(RVMC_IRECV, (long)buffer, rvmc_first(size), there, tag, context, 0);
    return rvmc_made_receive(a, buffer, size, c, 0, request);
}
RVMC_INLINE int MPI_Irecv(void *buffer, int count, MPI_Datatype type, int source, int tag, MPI_Comm c,
                          MPI_Request *request)
{
    long code;

    if (rvmc_is_derived(type))
        return rvmc_derived.receive("MPI_Irecv", RVMC_IRECV, 0, buffer, count, type, source, tag, c, 0, request);
    code = rvmc_posted(buffer, rvmc_bytes(count, type), source, tag, c, request);
    return rvmc_code("MPI_Irecv", code, RVMC_SOURCE, buffer, count, type, source, tag, c);
}

/* Behind a call that completed the request: a handle that isn't persistent becomes null (3.7.3), and the rest of a large
   message is taken. What the library knows of the handle was read before the call: behind it, another hart may have been
   given the same number. */
RVMC_INLINE long rvmc_completed(MPI_Request *request, int kind, const struct rvmc_rest *rest, MPI_Status *where, long code)
{
    if (kind & (RVMC_PERSISTENT | RVMC_PARTITIONED))
        rvmc_kinds[*request & 255] = (unsigned char)(kind & ~RVMC_ACTIVE);
    else
        *request = MPI_REQUEST_NULL;
    if ((kind & (RVMC_LARGE | RVMC_SENDER)) == RVMC_LARGE)
        code = rvmc_take_rest(rest, where, code);
    if (kind & RVMC_ELSEWHERE)
        rvmc_completed_elsewhere(rest->communicator, kind, where);
    return code;
}
RVMC_INLINE long rvmc_asked_machine(long number, MPI_Request *request, int kind, int *flag, MPI_Status *status)
{
    struct rvmc_rest rest = {0, 0, 0, 0, 0, 0};
    MPI_Status own, *where = status;
    rvmc_answer a;

    if (kind & (RVMC_LARGE | RVMC_ELSEWHERE)) {
        rest = rvmc_rests[*request];
        where = status ? status : &own;
    }
    a = rvmc_call(number, *request, (long)where, 0, 0, 0, 0);
    *flag = number == RVMC_WAIT ? a.code == RVMC_OK || a.code == RVMC_TRUNCATED : (int)a.value;
    return *flag && *request ? rvmc_completed(request, kind, &rest, where, a.code) : a.code;
}
RVMC_INLINE long rvmc_asked(long number, MPI_Request *request, int *flag, MPI_Status *status)
{
    int kind = rvmc_kind(*request);

    if (rvmc_idle())
        return RVMC_NOT_BEGUN;
    if (__builtin_expect(kind & (RVMC_OWN | RVMC_KEPT), 0))
        return rvmc_own.asked(number, request, flag, status);
    return rvmc_asked_machine(number, request, kind, flag, status);
}
RVMC_INLINE int MPI_Test(MPI_Request *request, int *flag, MPI_Status *status)
{
    MPI_Request was = *request;

    return rvmc_request_code("MPI_Test", rvmc_asked(RVMC_TEST, request, flag, status), was);
}
RVMC_INLINE int MPI_Wait(MPI_Request *request, MPI_Status *status)
{
    MPI_Request was = *request;
    int flag;

    return rvmc_request_code("MPI_Wait", rvmc_asked(RVMC_WAIT, request, &flag, status), was);
}

/* The machine waits for an array of plain requests by one call. Others are waited for one by one; so are all where errors
   return, for each status has its error then (3.7.5). */
int rvmc_one_by_one(int count, const MPI_Request *requests);
void rvmc_all_completed(int count, MPI_Request *requests, MPI_Status *statuses);
int rvmc_wait_one_by_one(int count, MPI_Request *requests, MPI_Status *statuses);

RVMC_INLINE int MPI_Waitall(int count, MPI_Request *requests, MPI_Status *statuses)
{
    rvmc_answer a = {RVMC_NOT_BEGUN, 0};

    if (!rvmc_idle() && rvmc_one_by_one(count, requests))
        return rvmc_wait_one_by_one(count, requests, statuses);
    if (!rvmc_idle())
        a = rvmc_call(RVMC_WAITALL, (long)requests, count, (long)statuses, 0, 0, 0);
    if (a.code == RVMC_OK || a.code == RVMC_TRUNCATED)
        rvmc_all_completed(count, requests, statuses);
    return rvmc_request_code("MPI_Waitall", a.code, MPI_REQUEST_NULL);
}
int MPI_Testall(int count, MPI_Request *requests, int *flag, MPI_Status *statuses);
int MPI_Waitany(int count, MPI_Request *requests, int *index, MPI_Status *status);
int MPI_Testany(int count, MPI_Request *requests, int *index, int *flag, MPI_Status *status);
int MPI_Waitsome(int count, MPI_Request *requests, int *done, int *indices, MPI_Status *statuses);
int MPI_Testsome(int count, MPI_Request *requests, int *done, int *indices, MPI_Status *statuses);

/* --- probes (3.8) --- */

RVMC_INLINE int MPI_Probe(int source, int tag, MPI_Comm c, MPI_Status *status)
{
    MPI_Status own;
    long code, there, context;

    if (rvmc_idle())
        return rvmc_comm_code("MPI_Probe", RVMC_NOT_BEGUN, c);
    there = rvmc_there(c, source);
    context = rvmc_context(c);
    if (__builtin_expect(rvmc_claims != 0, 0) && rvmc_claimed(there, tag, context, 0, status))
        return (int)rvmc_arrived(MPI_SUCCESS, c, status);
    code = rvmc_call(RVMC_PROBE, there, tag, context, (long)&own, 0, 0).code;
    if (!code && own.rvmc_bytes == RVMC_PIECE)
        code = rvmc_claim(context, 0, &own, tag == MPI_ANY_TAG ? 1 : 2).code;
    if (!code && status)
        *status = own;
    rvmc_arrived(code, c, status);
    return rvmc_code("MPI_Probe", code, RVMC_SOURCE, 0, 0, MPI_BYTE, source, tag, c);
}
RVMC_INLINE int MPI_Iprobe(int source, int tag, MPI_Comm c, int *flag, MPI_Status *status)
{
    MPI_Status own;
    rvmc_answer a;
    long there, context;

    if (rvmc_idle())
        return rvmc_comm_code("MPI_Iprobe", RVMC_NOT_BEGUN, c);
    there = rvmc_there(c, source);
    context = rvmc_context(c);
    if (__builtin_expect(rvmc_claims != 0, 0) && rvmc_claimed(there, tag, context, 0, status)) {
        *flag = 1;
        return (int)rvmc_arrived(MPI_SUCCESS, c, status);
    }
    a = rvmc_call(RVMC_IPROBE, there, tag, context, (long)&own, 0, 0);
    *flag = (int)a.value;
    if (a.value && own.rvmc_bytes == RVMC_PIECE)
        a.code = rvmc_claim(context, 0, &own, tag == MPI_ANY_TAG ? 1 : 2).code;
    if (a.value && !a.code && status) {
        *status = own;
        rvmc_here(c, status);
    }
    return rvmc_code("MPI_Iprobe", a.code, RVMC_SOURCE, 0, 0, MPI_BYTE, source, tag, c);
}
/* The handle of a message has its communicator behind the machine's number. A claimed large message has a number below
   MPI_MESSAGE_NO_PROC: the address of what the library keeps, less than 0. */
enum { RVMC_MESSAGE_BITS = 40 };
RVMC_INLINE MPI_Message rvmc_message_in(MPI_Comm c, MPI_Message message)
{
    if (message == MPI_MESSAGE_NULL || message == MPI_MESSAGE_NO_PROC)
        return message;
    return message + (message < 0 ? -(long)c : (long)c) * (1L << RVMC_MESSAGE_BITS);
}
RVMC_INLINE MPI_Comm rvmc_comm_of(MPI_Message message)
{
    return (MPI_Comm)((message < 0 ? -message : message) >> RVMC_MESSAGE_BITS);
}
RVMC_INLINE long rvmc_matched(long number, int source, int tag, MPI_Comm c, MPI_Message *message, MPI_Status *status)
{
    MPI_Status own;
    rvmc_answer a;
    long there, context;

    *message = MPI_MESSAGE_NULL;
    if (rvmc_idle())
        return RVMC_NOT_BEGUN;
    there = rvmc_there(c, source);
    context = rvmc_context(c);
    if (__builtin_expect(rvmc_claims != 0, 0) && rvmc_claimed(there, tag, context, message, status)) {
        *message = rvmc_message_in(c, *message);
        return rvmc_arrived(RVMC_OK, c, status);
    }
    a = rvmc_call(number, there, tag, context, (long)&own, 0, 0);
    if (a.value && own.rvmc_bytes == RVMC_PIECE)
        a = rvmc_claim(context, a.value, &own, 0);
    *message = rvmc_message_in(c, a.value);
    if (a.value && status) {
        *status = own;
        rvmc_here(c, status);
    }
    return a.code;
}
RVMC_INLINE int MPI_Mprobe(int source, int tag, MPI_Comm c, MPI_Message *message, MPI_Status *status)
{
    long code = rvmc_matched(RVMC_MPROBE, source, tag, c, message, status);

    return rvmc_code("MPI_Mprobe", code, RVMC_SOURCE, 0, 0, MPI_BYTE, source, tag, c);
}
RVMC_INLINE int MPI_Improbe(int source, int tag, MPI_Comm c, int *flag, MPI_Message *message, MPI_Status *status)
{
    long code = rvmc_matched(RVMC_IMPROBE, source, tag, c, message, status);

    *flag = *message != MPI_MESSAGE_NULL;
    return rvmc_code("MPI_Improbe", code, RVMC_SOURCE, 0, 0, MPI_BYTE, source, tag, c);
}
RVMC_INLINE long rvmc_receive_matched(void *buffer, long size, MPI_Message *message, MPI_Status *status)
{
    MPI_Comm c = rvmc_comm_of(*message);
    MPI_Message own = rvmc_message_in(-c, *message);
    long code;

    if (own < MPI_MESSAGE_NO_PROC)
        code = rvmc_claim_received(buffer, size, own, status);
    else
        code = rvmc_call(RVMC_MRECV, (long)buffer, rvmc_first(size), own, (long)status, 0, 0).code;
    *message = MPI_MESSAGE_NULL;
    return rvmc_arrived(code, c, status);
}
RVMC_INLINE int MPI_Mrecv(void *buffer, int count, MPI_Datatype type, MPI_Message *message, MPI_Status *status)
{
    MPI_Comm c = rvmc_comm_of(*message);
    long code;

    if (rvmc_is_derived(type))
        return rvmc_derived.receive("MPI_Mrecv", RVMC_MRECV, 0, buffer, count, type, 0, 0, c, status, message);
    code = rvmc_receive_matched(buffer, rvmc_bytes(count, type), message, status);
    return rvmc_code("MPI_Mrecv", code, RVMC_SOURCE, buffer, count, type, 0, 0, c);
}
RVMC_INLINE long rvmc_post_matched(void *buffer, long size, MPI_Message *message, MPI_Request *request)
{
    MPI_Comm c = rvmc_comm_of(*message);
    MPI_Message own = rvmc_message_in(-c, *message);
    rvmc_answer a;

    *message = MPI_MESSAGE_NULL;
    if (own < MPI_MESSAGE_NO_PROC)
        return rvmc_posted_claim(buffer, size, own, c, request);
    a = rvmc_call(RVMC_IMRECV, (long)buffer, rvmc_first(size), own, 0, 0, 0);
    return rvmc_made(a, request, a.code ? 0 : rvmc_elsewhere(c, a.value));
}
RVMC_INLINE int MPI_Imrecv(void *buffer, int count, MPI_Datatype type, MPI_Message *message, MPI_Request *request)
{
    MPI_Comm c = rvmc_comm_of(*message);
    MPI_Message matched = *message;
    long code;

    if (rvmc_is_derived(type)) {
        *message = MPI_MESSAGE_NULL;
        *request = matched;
        return rvmc_derived.receive("MPI_Imrecv", RVMC_IMRECV, 0, buffer, count, type, 0, 0, c, 0, request);
    }
    code = rvmc_post_matched(buffer, rvmc_bytes(count, type), message, request);
    return rvmc_code("MPI_Imrecv", code, RVMC_SOURCE, buffer, count, type, 0, 0, c);
}

/* --- persistent requests (3.9) --- */

#ifndef RVMC_UNBUFFERED
RVMC_INLINE int MPI_Send_init(const void *buffer, int count, MPI_Datatype type, int dest, int tag, MPI_Comm c,
                              MPI_Request *request)
{
    long code, size = rvmc_bytes(count, type);

    if (rvmc_idle())
        return rvmc_comm_code("MPI_Send_init", RVMC_NOT_BEGUN, c);
    if (rvmc_is_derived(type))
        return rvmc_derived.send("MPI_Send_init", RVMC_SEND_INIT, 0, buffer, count, type, dest, tag, c, request);
    if (size >= RVMC_PIECE)
        code = rvmc_made(rvmc_large_send_init(buffer, size, rvmc_there(c, dest), tag, rvmc_context(c)), request,
                         RVMC_PERSISTENT | RVMC_LARGE | RVMC_SENDER);
    else
        code = rvmc_made(rvmc_send_small(RVMC_SEND_INIT, buffer, size, rvmc_there(c, dest), tag, rvmc_context(c)), request,
                         RVMC_PERSISTENT | RVMC_SENDER);
    return rvmc_code("MPI_Send_init", code, 0, buffer, count, type, dest, tag, c);
}
#endif
RVMC_INLINE long rvmc_init_receive(void *buffer, long size, int source, int tag, MPI_Comm c, MPI_Request *request)
{
    rvmc_answer a = {RVMC_NOT_BEGUN, 0};

    if (!rvmc_idle())
        a = rvmc_call(RVMC_RECV_INIT, (long)buffer, rvmc_first(size), rvmc_there(c, source), tag, rvmc_context(c), 0);
    return rvmc_made_receive(a, buffer, size, c, RVMC_PERSISTENT, request);
}
RVMC_INLINE int MPI_Recv_init(void *buffer, int count, MPI_Datatype type, int source, int tag, MPI_Comm c,
                              MPI_Request *request)
{
    long code;

    if (rvmc_is_derived(type))
        return rvmc_derived.receive("MPI_Recv_init", RVMC_RECV_INIT, 0, buffer, count, type, source, tag, c, 0, request);
    code = rvmc_init_receive(buffer, rvmc_bytes(count, type), source, tag, c, request);
    return rvmc_code("MPI_Recv_init", code, RVMC_SOURCE, buffer, count, type, source, tag, c);
}
RVMC_INLINE long rvmc_start_machine(MPI_Request request, int kind)
{
    long code;

    code = (kind & RVMC_LARGE) || rvmc_claims ? rvmc_large_started(request) : RVMC_OK;

    if (!code)
        code = rvmc_call(RVMC_START, request, 0, 0, 0, 0, 0).code;
    if (!code)
        rvmc_kinds[request & 255] = (unsigned char)(kind | RVMC_ACTIVE);
    return code;
}
RVMC_INLINE long rvmc_started(MPI_Request request)
{
    int kind = rvmc_kind(request);

    if (rvmc_idle())
        return RVMC_NOT_BEGUN;
    if (__builtin_expect(kind & RVMC_OWN, 0))
        return rvmc_own.started(request);
    return rvmc_start_machine(request, kind);
}
RVMC_INLINE int MPI_Start(MPI_Request *request)
{
    return rvmc_request_code("MPI_Start", rvmc_started(*request), *request);
}
RVMC_INLINE int MPI_Startall(int count, MPI_Request *requests)
{
    long code = count < 0 ? RVMC_BAD_COUNT : RVMC_OK;
    int i = 0;

    while (i < count && !code)
        code = rvmc_started(requests[i++]);
    return rvmc_request_code("MPI_Startall", code, i > 0 ? requests[i - 1] : MPI_REQUEST_NULL);
}
/* A send that is complete is freed by its test; one that isn't yet stays among the 255, and is freed with the rank. So is what is
   active otherwise (3.7.3, 3.9), but a collective, which may not be freed (6.12). */
RVMC_INLINE int MPI_Request_free(MPI_Request *request)
{
    int kind = rvmc_kind(*request);
    MPI_Request was = *request;
    rvmc_answer a;

    if ((kind & (RVMC_PERSISTENT | RVMC_SENDER)) == RVMC_SENDER)
        a = rvmc_call(RVMC_TEST, was, 0, 0, 0, 0, 0);
    else if (__builtin_expect(kind & RVMC_OWN, 0) && rvmc_own.is_open_collective(was))
        a.code = RVMC_OPEN_COLLECTIVE;
    else
        a = rvmc_call(RVMC_REQUEST_FREE, was, 0, 0, 0, 0, 0);
    if (__builtin_expect(a.code == RVMC_STILL_ACTIVE, 0) && !(kind & (RVMC_OWN | RVMC_PARTITIONED))) {
        a.code = rvmc_let_go(was, kind);
        kind = 0;
    }
    if (!a.code) {
        if (__builtin_expect(kind & (RVMC_LARGE | RVMC_OWN), 0))
            rvmc_freed(was, kind);
        if (kind & RVMC_ELSEWHERE)
            rvmc_closed(rvmc_rests[was].communicator);
        *request = MPI_REQUEST_NULL;
    }
    return rvmc_request_code("MPI_Request_free", a.code, was);
}

/* --- partitioned requests (4.2) --- */

RVMC_INLINE int rvmc_parts_code(const char *call, long code, int of, const void *buffer, long parts, MPI_Count count,
                                MPI_Datatype type, int peer, int tag, MPI_Comm c)
{
    long size = rvmc_bytes(count, type);

    if (__builtin_expect(code == RVMC_OK, 1))
        return MPI_SUCCESS;
    if (code == RVMC_BAD_PARTITION || (code == RVMC_BAD_COUNT && size >= 0))
        return rvmc_trapped(rvmc_wrong_parts(call, code, parts, size));
    return rvmc_trapped(rvmc_wrong(call, code + of, buffer, count, type, peer, tag, c));
}
RVMC_INLINE int MPI_Psend_init(const void *buffer, int partitions, MPI_Count count, MPI_Datatype type, int dest, int tag,
                               MPI_Comm c, MPI_Info info, MPI_Request *request)
{
    rvmc_answer a = {buffer ? RVMC_NOT_BEGUN : RVMC_BAD_BUFFER, 0};

    (void)info;
    if (rvmc_is_derived(type))
        return rvmc_derived.in_parts("MPI_Psend_init", RVMC_PSEND_INIT, buffer, partitions, count, type, dest, tag, c, request);
    if (buffer && !rvmc_idle())
        a = rvmc_call(RVMC_PSEND_INIT, (long)buffer, partitions, rvmc_bytes(count, type), rvmc_there(c, dest), tag,
                      rvmc_context(c));
    a.code = rvmc_made(a, request, RVMC_PARTITIONED | RVMC_SENDER);
    return rvmc_parts_code("MPI_Psend_init", a.code, 0, buffer, partitions, count, type, dest, tag, c);
}
RVMC_INLINE int MPI_Precv_init(void *buffer, int partitions, MPI_Count count, MPI_Datatype type, int source, int tag,
                               MPI_Comm c, MPI_Info info, MPI_Request *request)
{
    rvmc_answer a = {RVMC_NOT_BEGUN, 0};

    (void)info;
    if (rvmc_is_derived(type))
        return rvmc_derived.in_parts("MPI_Precv_init", RVMC_PRECV_INIT, buffer, partitions, count, type, source, tag, c, request);
    if (!rvmc_idle())
        a = rvmc_call(RVMC_PRECV_INIT, (long)buffer, partitions, rvmc_bytes(count, type), rvmc_there(c, source), tag,
                      rvmc_context(c));
    a.code = rvmc_made(a, request, a.code ? 0 : RVMC_PARTITIONED | rvmc_elsewhere(c, a.value));
    return rvmc_parts_code("MPI_Precv_init", a.code, RVMC_SOURCE, buffer, partitions, count, type, source, tag, c);
}
RVMC_INLINE int rvmc_part_code(const char *call, long code, int partition, MPI_Request request)
{
    if (__builtin_expect(code == RVMC_BAD_PARTITION, 0))
        return rvmc_trapped(rvmc_wrong_parts(call, code, partition, -1));
    return rvmc_request_code(call, code, request);
}
RVMC_INLINE int MPI_Pready(int partition, MPI_Request request)
{
    long code = rvmc_call(RVMC_PREADY, request, partition, 0, 0, 0, 0).code;

    return rvmc_part_code("MPI_Pready", code, partition, request);
}
RVMC_INLINE int MPI_Pready_range(int low, int high, MPI_Request request)
{
    long code = RVMC_OK;
    int i = low;

    while (i <= high && !code)
        code = rvmc_call(RVMC_PREADY, request, i++, 0, 0, 0, 0).code;
    return rvmc_part_code("MPI_Pready_range", code, i - 1, request);
}
RVMC_INLINE int MPI_Pready_list(int length, const int partitions[], MPI_Request request)
{
    long code = RVMC_OK;
    int i = 0;

    while (i < length && !code)
        code = rvmc_call(RVMC_PREADY, request, partitions[i++], 0, 0, 0, 0).code;
    return rvmc_part_code("MPI_Pready_list", code, i ? partitions[i - 1] : 0, request);
}
RVMC_INLINE int MPI_Parrived(MPI_Request request, int partition, int *flag)
{
    rvmc_answer a = rvmc_call(RVMC_PARRIVED, request, partition, 0, 0, 0, 0);

    *flag = (int)a.value;
    return rvmc_part_code("MPI_Parrived", a.code, partition, request);
}

#include "lib/declared.h"
#include "lib/declared_later.h"
#include "lib/declared_communicators.h"
#include "lib/lacks.h"
#ifdef RVMC_CHECK
#include "lib/check.h"
#endif
#include "lib/counts.h"
#endif
