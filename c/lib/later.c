/* later.c: how collectives that don't wait go on (later.h). */
#include <stdlib.h>
#define RVMC_OF_DERIVED
#define RVMC_REDUCTIONS
#include "derived_calls.h"
#include "../mpi.h"
#include "errors.h"
#include "folding.h"
#include "group.h"
#include "owners.h"
#include "later.h"

/* Of the numbers of a communicator persistent collectives have the last ones. */
enum { LASTING = 128, PASSING = RVMC_MOST_LATER - LASTING };

/* The numbers that open collectives have, by communicators. */
static unsigned char taken[RVMC_COMMUNICATORS][RVMC_MOST_LATER];

char *rvmc_side_place(const struct side *s, int i)
{
    long place = (long)s->count * i;

    if (s->same)
        return (char *)s->buffer;
    if (s->bytes)
        return (char *)s->buffer + s->bytes[i];
    if (s->places)
        place = s->places[i];
    for (int r = 0; s->counts && !s->places && r < i; r++)
        place += s->counts[r];
    return (char *)s->buffer + (s->types ? place : place * extent_of(s->type));
}

/* --- the members of one that waits for all of them (rvmc-cc --synchronizing) --- */

static int has_arrived(const struct group *g, int r)
{
    return rvmc_call(RVMC_IPROBE, rvmc_rank_at(g->of, r), g->tag, RVMC_TWIN, 0, 0, 0).value != 0;
}

/* Says to each other member that this rank has begun: a message in front of those of the collective. */
static void tell_members(struct later *l)
{
    const struct group *g = &l->g;

    l->heard = 0;
    for (int r = 0; r < g->size && !g->code; r++)
        if (r != g->me)
            rvmc_call(RVMC_SEND, 0, 0, rvmc_rank_at(g->of, r), g->tag, RVMC_TWIN, RVMC_IS_BUFFERED);
}

/* Whether all have begun, for whom it waits or not. rvmc-mpi knows a hart that waits here by the name. */
static __attribute__((noinline)) int members_have_begun(struct later *l, int wait)
{
    const struct group *g = &l->g;

    for (; l->heard < g->size && !g->code; l->heard++) {
        if (l->heard == g->me)
            continue;
        if (!wait && !has_arrived(g, l->heard))
            return 0;
        rvmc_call(RVMC_RECV, 0, 0, rvmc_rank_at(g->of, l->heard), g->tag, RVMC_TWIN, 0);
    }
    return 1;
}

/* --- the start --- */

static void start(struct later *l)
{
    struct group *g = &l->g;

    g->given = g->taken = 0;
    l->next = 0;
    if (RVMC_NUMBER(rvmc_meetings) > 1)
        tell_members(l);
    for (int r = 0; r < g->size && !g->code; r++)
        if (l->to & bit(r))
            give(g, rvmc_side_place(&l->out, r), side_count(&l->out, r), side_type(&l->out, r), r);
    /* backwards, as those that wait do (neighbours.c) */
    for (int i = l->neighbors.out - 1; i >= 0 && !g->code; i--)
        if (l->neighbors.destinations[i] != MPI_PROC_NULL)
            give(g, rvmc_side_place(&l->out, i), side_count(&l->out, i), side_type(&l->out, i), l->neighbors.destinations[i]);
    if (l->own && !g->code)
        rvmc_copy(g, rvmc_side_place(&l->in, g->me), side_count(&l->in, g->me), side_type(&l->in, g->me),
                  rvmc_side_place(&l->out, g->me), side_count(&l->out, g->me), side_type(&l->out, g->me));
}

/* --- what comes later --- */

static char *new_values(struct later *l, int i)
{
    MPI_Datatype type = l->out.type;

    if (rvmc_is_derived(type)) {
        struct rvmc_values v = rvmc_new_values(l->count, type);

        l->memory[i] = v.memory;
        return v.base;
    }
    return l->memory[i] = malloc(l->count * RVMC_SIZE_OF(type) + 1);
}

static void begin_fold(struct later *l)
{
    l->all = new_values(l, 0);
    l->last = new_values(l, 1);
    if (!l->memory[0] || !l->memory[1])
        fault(&l->g, RVMC_NO_MEMORY, 0, 0, 0);
}

/* What a rank gave is folded behind what those before it gave. */
static void fold_next(struct later *l, int r)
{
    MPI_Datatype type = l->out.type;
    struct group *g = &l->g;
    int first = !(l->folded & (bit(r) - 1)), length = (int)l->count;
    char *to, *before;

    if (first)
        begin_fold(l);
    to = first ? l->all : l->last;
    if (r != g->me)
        take(g, to, l->count, type, r);
    else if (!g->code)
        rvmc_copy(g, to, l->count, type, rvmc_side_place(&l->out, r), l->count, type);
    if (first || g->code || !length)
        return;
    before = l->all;
    if (l->function)
        l->function(before, to, &length, &type);
    else
        l->fold(to, before, length, g->op);
    l->all = to;
    l->last = before;
}

/* Goes on, waiting or as far as messages have arrived. Returns whether all is done. */
static int go_on(struct later *l, int wait)
{
    struct group *g = &l->g;
    unsigned wanted = l->from | l->folded;

    if (RVMC_NUMBER(rvmc_meetings) > 1 && !members_have_begun(l, wait))
        return 0;
    for (; l->next < l->neighbors.in && !g->code; l->next++) {
        int i = l->next, r = l->neighbors.sources[i];

        if (r == MPI_PROC_NULL)
            continue;
        if (!wait && !has_arrived(g, r))
            return 0;
        take(g, rvmc_side_place(&l->in, i), side_count(&l->in, i), side_type(&l->in, i), r);
    }
    for (; wanted && l->next < g->size && !g->code; l->next++) {
        int r = l->next;

        if (!(wanted & bit(r)))
            continue;
        if (!wait && r != g->me && !has_arrived(g, r))
            return 0;
        if (l->folded)
            fold_next(l, r);
        else
            take(g, rvmc_side_place(&l->in, r), side_count(&l->in, r), side_type(&l->in, r), r);
    }
    return 1;
}

static void free_values(struct later *l)
{
    free(l->memory[0]);
    free(l->memory[1]);
    l->memory[0] = l->memory[1] = 0;
}

/* --- requests --- */

/* A datatype that the program frees meanwhile stays. */
static void use_side(const struct side *s, int parts, int change)
{
    for (int i = 0; i < (s->types ? parts : 1); i++)
        if (rvmc_is_derived(side_type(s, i)))
            rvmc_derived.changed_uses(side_type(s, i), change);
}

static void use_types(const struct later *l, int change)
{
    use_side(&l->out, l->neighbors.destinations ? l->neighbors.out : l->g.size, change);
    use_side(&l->in, l->neighbors.sources ? l->neighbors.in : l->g.size, change);
}

static void freed(void *thing)
{
    struct later *l = thing;

    taken[l->g.communicator][l->number] = 0;
    use_types(l, -1);
    rvmc_closed(l->g.communicator);
    free_values(l);
    free(l);
}

static MPI_Request inner(MPI_Request request)
{
    return go_on(rvmc_owned(request), 0) ? MPI_REQUEST_NULL : RVMC_NOT_YET;
}

/* The result is where it belongs, and the request is over or inactive. */
static long finished(struct later *l, MPI_Request *request)
{
    int kind = rvmc_kind(*request), error;

    if (l->folded && !l->g.code)
        rvmc_copy(&l->g, (char *)l->in.buffer, l->count, l->out.type, l->all, l->count, l->out.type);
    free_values(l);
    error = finish(&l->g);
    l->g.code = RVMC_OK;
    if (kind & RVMC_PERSISTENT) {
        rvmc_kinds[*request] = (unsigned char)(kind & ~RVMC_ACTIVE);
    } else {
        rvmc_call(RVMC_REQUEST_FREE, *request, 0, 0, 0, 0, 0);
        freed(l);
        *request = MPI_REQUEST_NULL;
    }
    rvmc_later_error = error;
    return error ? RVMC_LATER_FAILED : RVMC_OK;
}

static long asked(long number, MPI_Request *request, int *flag, MPI_Status *status)
{
    struct later *l = rvmc_owned(*request);
    int kind = rvmc_kind(*request), active = !(kind & RVMC_PERSISTENT) || (kind & RVMC_ACTIVE);

    *flag = !active || go_on(l, number == RVMC_WAIT);
    if (*flag && status)
        *status = rvmc_empty_status;
    return active && *flag ? finished(l, request) : RVMC_OK;
}

static long started(MPI_Request request)
{
    struct later *l = rvmc_owned(request);
    int error;

    start(l);
    if (!l->g.code) {
        rvmc_order_starts(l->g.communicator, l->number);
        rvmc_kinds[request] |= RVMC_ACTIVE;
        return RVMC_OK;
    }
    error = finish(&l->g);
    l->g.code = RVMC_OK;
    rvmc_later_error = error;
    return RVMC_LATER_FAILED;
}

/* Makes the request: its number is that of one of the machine's that never starts. */
static struct later *made(struct later *given, int kind, int number, MPI_Request *request)
{
    static const struct rvmc_owner owner = {asked, started, inner, freed, 1};
    struct group *g = &given->g;
    struct later *l = g->code ? 0 : malloc(sizeof *l);
    rvmc_answer a = {g->code ? g->code : l ? RVMC_OK : RVMC_NO_MEMORY, 0};

    if (!a.code && taken[g->communicator][number])
        a.code = RVMC_TOO_MANY;
    if (!a.code)
        a = rvmc_call(RVMC_SEND_INIT, 0, 0, MPI_PROC_NULL, 0, MPI_COMM_WORLD, 0);
    if (rvmc_made(a, request, kind)) {
        fault(g, a.code, 0, 0, 0);
        free(l);
        return 0;
    }
    *l = *given;
    l->number = number;
    l->g.tag = RVMC_TAG_LATER + g->communicator * RVMC_MOST_LATER + number;
    taken[g->communicator][number] = 1;
    use_types(l, 1);
    rvmc_opened(g->communicator);
    rvmc_own_request(*request, &owner, l);
    rvmc_count(&l->g);
    return l;
}

int rvmc_later_begin(struct later *given, MPI_Request *request)
{
    struct rvmc_communicator *of = given->g.code ? 0 : rvmc_table + given->g.communicator;
    struct later *l = made(given, 0, of ? of->later++ % PASSING : 0, request);
    int error;

    if (!l)
        return finish(&given->g);
    start(l);
    error = finish(&l->g);
    if (error) {
        rvmc_call(RVMC_REQUEST_FREE, *request, 0, 0, 0, 0, 0);
        freed(l);
        *request = MPI_REQUEST_NULL;
    }
    return error;
}

int rvmc_later_init(struct later *given, MPI_Request *request)
{
    struct rvmc_communicator *of = given->g.code ? 0 : rvmc_table + given->g.communicator;
    int number = PASSING + (of ? of->lasting++ % LASTING : 0);
    struct later *l = made(given, RVMC_PERSISTENT, number, request);

    if (!l)
        return finish(&given->g);
    rvmc_order_lasts(&l->g, number);
    return MPI_SUCCESS;
}
