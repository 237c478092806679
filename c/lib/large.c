/* large.c: messages of 4,096 bytes and more, which the machine doesn't carry in one.
   A large message is a first piece of 4,096 bytes in the program's communicator, where it is matched by the rules of 3.5 as
   any message is, and a rest in the twin. The last 8 bytes of the first piece are the message's number and its length; the
   bytes that belong there stand at the beginning of the rest. The rest is sent first, with a tag of its own for each
   message, so it is there when the first piece is received, in whatever order messages are. A message of 4,096 bytes is
   large too: so a piece of this length is always a first one. */
#include <stdlib.h>
#include <string.h>
#include "../mpi.h"
#include "system.h"

enum { KEPT = RVMC_PIECE - 8, NUMBERS = 7008 };

struct header {
    int number, total;
};

/* A large message that a probe has found: its length stands in its bytes, so it is received at once and kept here. */
struct claim {
    struct claim *next;
    long context;
    int source, tag, by_tag;
    char first[RVMC_PIECE];
};

/* A persistent send of a large message: the machine reads first at each start. */
struct again {
    char first[RVMC_PIECE];
    const char *buffer;
    long size, dest;
};

void *rvmc_claims;

static long least(long a, long b)
{
    return a < b ? a : b;
}

/* Whether a buffer reaches out of the memory. The machine sees its pieces one by one, so it would tell too late. */
static int is_outside(const char *buffer, long size)
{
    unsigned long memory = RVMC_NUMBER(rvmc_memory);

    return !buffer || (unsigned long)buffer > memory || (unsigned long)size > memory - (unsigned long)buffer;
}

/* Sends the rest, and makes the first piece. Numbers are the harts' own, since harts count without a lock. */
static long split(char *first, const char *buffer, long size, long dest)
{
    struct rvmc_page *page = &rvmc_pages[rvmc_hart];
    struct header header = {rvmc_hart * NUMBERS + (int)(page->count++ % NUMBERS), (int)size};

    if (is_outside(buffer, size))
        return RVMC_BAD_BUFFER;
    if (dest == MPI_PROC_NULL)
        return RVMC_OK;
    for (long at = KEPT; at < size; at += RVMC_PIECE) {
        long code = rvmc_call(RVMC_SEND, (long)buffer + at, least(size - at, RVMC_PIECE), dest,
                              RVMC_TAG_REST + header.number, RVMC_TWIN, RVMC_IS_BUFFERED).code;

        if (code)
            return code;
    }
    memcpy(first, buffer, KEPT);
    memcpy(first + KEPT, &header, sizeof header);
    return RVMC_OK;
}

/* The rest of a message that is refused would stay for ever, so what only the first piece would show is looked at before:
   the tag, and whether there is a context. */
rvmc_answer rvmc_give_rest(const void *buffer, long size, long dest, int tag, long context)
{
    char *first = rvmc_pages[rvmc_hart].first;

    if (context < 0)
        return (rvmc_answer){RVMC_BAD_COMM, 0};
    if (tag < 0 || tag > RVMC_MOST_TAG)
        return (rvmc_answer){RVMC_BAD_TAG, 0};
    return (rvmc_answer){split(first, buffer, size, dest), (long)first};
}

/* Receives the rest behind the first piece. What has no room is dropped, as the machine drops it. */
static long join(char *buffer, long size, int source, struct header header)
{
    for (long at = KEPT; at < header.total; at += RVMC_PIECE) {
        long room = least(size - at, least(header.total - at, RVMC_PIECE));
        long code = rvmc_call(RVMC_RECV, (long)buffer + at, room < 0 ? 0 : room, source,
                              RVMC_TAG_REST + header.number, RVMC_TWIN, 0).code;

        if (code != RVMC_OK && code != RVMC_TRUNCATED)
            return code;
    }
    return header.total > size ? RVMC_TRUNCATED : RVMC_OK;
}

static struct header header_of(const char *first)
{
    struct header header;

    memcpy(&header, first + KEPT, sizeof header);
    return header;
}

long rvmc_take_rest(const struct rvmc_rest *rest, MPI_Status *status, long code)
{
    struct header header;

    if (rest->again) {
        status->MPI_SOURCE = rest->source;
        status->MPI_TAG = rest->tag;
    }
    if (code != RVMC_OK || status->rvmc_bytes != RVMC_PIECE)
        return code;
    header = header_of(rest->buffer);
    status->rvmc_bytes = (int)least(header.total, rest->size);
    return join(rest->buffer, rest->size, status->MPI_SOURCE, header);
}

/* Claims the message that a probe has found, and keeps it, to be found by the receives and probes that follow. Where a
   rank has several harts, another one may receive it meanwhile, so there only the probes that match are served (3.8.2). */
rvmc_answer rvmc_claim(long context, MPI_Message message, MPI_Status *status, int keep)
{
    struct claim *claim, **end = (struct claim **)&rvmc_claims;
    rvmc_answer a;

    if (keep && RVMC_NUMBER(rvmc_harts) > 1)
        return (rvmc_answer){RVMC_LARGE_PROBE, 0};
    claim = malloc(sizeof *claim);
    if (!claim)
        return (rvmc_answer){RVMC_NO_MEMORY, 0};
    if (keep)
        message = rvmc_call(RVMC_IMPROBE, status->MPI_SOURCE, status->MPI_TAG, context, 0, 0, 0).value;
    a = rvmc_call(RVMC_MRECV, (long)claim->first, RVMC_PIECE, message, 0, 0, 0);
    claim->next = NULL;
    claim->context = context;
    claim->source = status->MPI_SOURCE;
    claim->tag = status->MPI_TAG;
    claim->by_tag = keep == 2;
    status->rvmc_bytes = header_of(claim->first).total;
    if (keep) {
        while (*end)
            end = &(*end)->next;
        *end = claim;
    }
    return (rvmc_answer){a.code, -(long)claim};
}

/* A message that was probed for by its tag, with another one of the same sender waiting: which was sent first isn't known
   any more, so a receive of any tag can't be told which of them is its (3.5). */
static void refuse_unordered(const struct claim *claim)
{
    rvmc_answer a = rvmc_call(RVMC_IPROBE, claim->source, MPI_ANY_TAG, claim->context, 0, 0, 0);

    if (!a.value)
        return;
    rvmc_tell("a receive or probe of MPI_ANY_TAG, behind a probe by tag for a message of 4096 bytes or more",
              ": receive that one first");
    __asm__ volatile("ebreak");
}

int rvmc_claimed(long source, int tag, long context, MPI_Message *message, MPI_Status *status)
{
    struct claim **at = (struct claim **)&rvmc_claims, *claim;

    for (; (claim = *at); at = &claim->next)
        if (claim->context == context && (source == MPI_ANY_SOURCE || source == claim->source) &&
            (tag == MPI_ANY_TAG || tag == claim->tag))
            break;
    if (!claim)
        return 0;
    if (tag == MPI_ANY_TAG && claim->by_tag)
        refuse_unordered(claim);
    if (status)
        *status = (MPI_Status){claim->source, 0, claim->tag, 0, header_of(claim->first).total, MPI_SUCCESS};
    if (message) {
        *message = -(long)claim;
        *at = claim->next;
    }
    return 1;
}

long rvmc_claim_received(void *buffer, long size, MPI_Message message, MPI_Status *status)
{
    struct claim *claim = (struct claim *)-message;
    struct header header = header_of(claim->first);
    long code;

    if (size < 0)
        return RVMC_BAD_COUNT;
    memcpy(buffer, claim->first, least(size, KEPT));
    code = join(buffer, size, claim->source, header);
    if (status)
        *status = (MPI_Status){claim->source, 0, claim->tag, 0, (int)least(size, header.total), MPI_SUCCESS};
    free(claim);
    return code;
}

/* A claimed message gets a request by way of a message of the rank to itself. */
rvmc_answer rvmc_claim_posted(void *buffer, long size, MPI_Message message)
{
    struct claim *claim = (struct claim *)-message;
    long tag = RVMC_TAG_AGAIN + rvmc_hart, twin = RVMC_TWIN;
    rvmc_answer a = rvmc_call(RVMC_IRECV, (long)buffer, rvmc_first(size), rvmc_rank, tag, twin, 0);

    if (a.code)
        return a;
    rvmc_call(RVMC_SEND, (long)claim->first, RVMC_PIECE, rvmc_rank, tag, twin, RVMC_IS_BUFFERED);
    if (size < RVMC_PIECE)
        join(buffer, 0, claim->source, header_of(claim->first));
    rvmc_kinds[a.value & 255] = RVMC_LARGE;
    rvmc_rests[a.value & 255] = (struct rvmc_rest){buffer, size, MPI_COMM_WORLD, 1, claim->source, claim->tag};
    free(claim);
    return a;
}

rvmc_answer rvmc_large_send_init(const void *buffer, long size, long dest, int tag, long context)
{
    struct again *again;
    rvmc_answer a;

    if (is_outside(buffer, size))
        return (rvmc_answer){RVMC_BAD_BUFFER, 0};
    again = malloc(sizeof *again);
    if (!again)
        return (rvmc_answer){RVMC_NO_MEMORY, 0};
    again->buffer = buffer;
    again->size = size;
    again->dest = dest;
    a = rvmc_call(RVMC_SEND_INIT, (long)again->first, RVMC_PIECE, dest, tag, context, 0);
    if (a.code)
        free(again);
    else
        rvmc_rests[a.value & 255].buffer = (char *)again;
    return a;
}

/* Before a persistent request starts. A receive can't be given what a probe has claimed, for the machine posts it. */
long rvmc_large_started(MPI_Request request)
{
    int kind = rvmc_kind(request);
    struct again *again = (struct again *)rvmc_rests[request & 255].buffer;

    if (kind & RVMC_ACTIVE)
        return RVMC_OK;
    if ((kind & RVMC_LARGE) && (kind & RVMC_SENDER))
        return split(again->first, again->buffer, again->size, again->dest);
    return rvmc_claims && (kind & RVMC_PERSISTENT) && !(kind & RVMC_SENDER) ? RVMC_LARGE_PROBE : RVMC_OK;
}

void rvmc_large_freed(MPI_Request request)
{
    free(rvmc_rests[request & 255].buffer);
}
