/* mismatch.c: the heads of collectives' messages, and what is told of ranks that are in one collective with other data. */
#include <string.h>
#include "../mpi.h"
#include "errors.h"
#include "system.h"
#include "places.h"
#include "group.h"

struct rvmc_signature (*rvmc_signature_of_derived)(MPI_Datatype type);

/* --- signatures --- */

static const struct rvmc_signature nothing = {1, 0};

struct rvmc_signature rvmc_signature_times(struct rvmc_signature one, long count)
{
    struct rvmc_signature all = nothing;

    for (; count > 0; count /= 2) {
        if (count & 1)
            all = rvmc_signature_then(all, one);
        one = rvmc_signature_then(one, one);
    }
    return all;
}

static struct rvmc_signature element(int kind, int size)
{
    return (struct rvmc_signature){RVMC_SIGNATURE_BASE, (unsigned long)(kind << 8 | size)};
}

/* By kind and size, so that MPI_LONG is like MPI_INT64_T. A pair is its two elements. */
struct rvmc_signature rvmc_signature_of(MPI_Datatype type)
{
    int kind = RVMC_KIND_OF(type), size = RVMC_SIZE_OF(type);

    if (!size)
        return rvmc_signature_of_derived ? rvmc_signature_of_derived(type) : nothing;
    switch (kind) {
    case RVMC_FLOATING_PAIR:
        return rvmc_signature_then(element(RVMC_FLOATING, type == MPI_FLOAT_INT ? 4 : size / 2), element(RVMC_SIGNED, 4));
    case RVMC_SIGNED_PAIR:
        return rvmc_signature_then(element(RVMC_SIGNED, type == MPI_SHORT_INT ? 2 : 8), element(RVMC_SIGNED, 4));
    case RVMC_TWO_SIGNED:
        return rvmc_signature_times(element(RVMC_SIGNED, size / 2), 2);
    case RVMC_TWO_FLOATING:
        return rvmc_signature_times(element(RVMC_FLOATING, size / 2), 2);
    default:
        return type == MPI_PACKED ? (struct rvmc_signature){0, 0} : element(kind, size);
    }
}

/* The same data are given to many, so the last signature is kept. */
static unsigned signature(struct group *g, long count, MPI_Datatype type)
{
    if (!g->whole && (count != g->count || type != g->type)) {
        g->count = count;
        g->type = type;
        g->signature = (unsigned)rvmc_signature_times(rvmc_signature_of(type), count).sum;
    }
    return g->signature;
}

void rvmc_whole(struct group *g, long count, MPI_Datatype type)
{
    if (g->code)
        return;
    signature(g, count, type);
    g->whole = 1;
}

/* --- heads --- */

static struct rvmc_head head_of(struct group *g, long count, MPI_Datatype type, long size)
{
    unsigned hash = signature(g, count, type);

    if (g->whole)
        size = g->count * RVMC_SIZE_OF(g->type);
    return (struct rvmc_head){g->point, hash, (int)size, (int)g->count, (unsigned)g->type};
}

static int is_outside(const char *buffer, long size)
{
    unsigned long memory = RVMC_NUMBER(rvmc_memory);

    return (unsigned long)buffer > memory || (unsigned long)size > memory - (unsigned long)buffer;
}

/* The first message for a rank: the head, and as many bytes as have room behind it. */
const char *rvmc_headed(struct group *g, const void *buffer, long count, MPI_Datatype type, long size)
{
    char *message = head_room(buffer);

    if (size && is_outside(buffer, size)) {
        fault(g, RVMC_BAD_BUFFER, "sendbuf", (long)buffer, size);
        return message;
    }
    if (g->uncounted)
        rvmc_count(g);
    *(struct rvmc_head *)message = head_of(g, count, type, size);
    memcpy(message + RVMC_HEAD, buffer, (size_t)headed(size));
    return message;
}

/* Whether the data of another rank's call are those of this rank's. */
static int differs(const struct rvmc_head *mine, const struct rvmc_head *theirs)
{
    if (theirs->bytes != mine->bytes)
        return MPI_ERR_TRUNCATE;
    return theirs->signature != mine->signature && theirs->signature && mine->signature ? MPI_ERR_TYPE : MPI_SUCCESS;
}

static int is_bad(const void *buffer, long size)
{
    return size && ((const char *)buffer < rvmc_stacks || is_outside(buffer, size));
}

/* A call is counted before it waits, so that the order of a rank that waits for ever has it too. */
void rvmc_hears(struct group *g, const void *buffer, long size)
{
    if (is_bad(buffer, size))
        fault(g, RVMC_BAD_BUFFER, "recvbuf", (long)buffer, size);
    else
        rvmc_count(g);
}

void rvmc_heard(struct group *g, void *buffer, long count, MPI_Datatype type, long size, int from, long bytes)
{
    const char *message = head_room(buffer);
    const struct rvmc_head *theirs = (const struct rvmc_head *)message;
    struct rvmc_head mine;

    if (is_bad(buffer, size)) {
        fault(g, RVMC_BAD_BUFFER, "recvbuf", (long)buffer, size);
        return;
    }
    if ((bytes < RVMC_HEAD || theirs->point.digest != g->point.digest || theirs->point.number != g->point.number) &&
        !rvmc_out_of_order(g, message, rvmc_rank_at(g->of, from), bytes))
        return;
    mine = head_of(g, count, type, size);
    if (differs(&mine, theirs)) {
        fault(g, RVMC_MISMATCH, message, rvmc_rank_at(g->of, from), size);
        g->mine = mine;
    } else {
        memcpy(buffer, message + RVMC_HEAD, (size_t)headed(size));
    }
}

/* --- what is told --- */

/* What a rank is in: the call, its data, and where it stands. */
static void put_call(const struct rvmc_head *head)
{
    struct rvmc_step step = head->point.step;
    const struct rvmc_place *place = rvmc_place_of((const void *)(unsigned long)step.place);
    MPI_Datatype type = (MPI_Datatype)head->type;

    rvmc_put("%s of %d %s", rvmc_called(step), (long)head->count, RVMC_SIZE_OF(type) ? rvmc_type_name(type) : "of a derived datatype");
    if (place)
        rvmc_put(" (%s:%d)", rvmc_file_of(place), (long)place->line);
}

struct mismatch {
    struct rvmc_head heads[2];
    int ranks[2];
};

static void tell(const struct mismatch *m)
{
    rvmc_begin_line();
    rvmc_put("collective mismatch: rank %d in ", (long)m->ranks[0]);
    put_call(&m->heads[0]);
    rvmc_put(", rank %d in ", (long)m->ranks[1]);
    put_call(&m->heads[1]);
    rvmc_put("\n");
}

static struct mismatch unheeded;

static void tell_unheeded(void)
{
    tell(&unheeded);
}

int rvmc_wrong_mismatch(const struct group *g)
{
    const struct rvmc_head *theirs = (const struct rvmc_head *)g->argument;
    int answer = rvmc_handled(g->communicator, differs(&g->mine, theirs)), mine = g->value < rvmc_rank;
    struct mismatch m;

    m.heads[mine] = g->mine;
    m.ranks[mine] = rvmc_rank;
    m.heads[!mine] = *theirs;
    m.ranks[!mine] = (int)g->value;
    if (!answer) {
        tell(&m);
    } else if (!rvmc_unheeded) {
        unheeded = m;
        rvmc_unheeded = tell_unheeded;
    }
    return answer;
}
