/* idup.c: copies of communicators by calls that don't wait (MPI 4.1, 7.4.2). At the call a rank offers the others contexts, and
   when the request completes it hears what they offer: the first that all offer is taken. Copies of one communicator are made
   in the order in which they were begun, so all members choose the same. For copies of two communicators that are open at the
   same time a rank offers different contexts: those with even numbers for a communicator with an even number, as long as it
   has any, those with odd ones for one with an odd number, and the lowest for MPI_COMM_WORLD. So what several ranks offer
   goes together as a rule, in whatever order they begin. */
#include <stdlib.h>
#include "../mpi.h"
#include "errors.h"
#include "group.h"
#include "owners.h"
#include "contexts.h"

enum { LOW = 0x1c, EVEN = 0x54, ODD = 0xa8 };

static struct copy {
    struct copy *next;
    struct group g;
    MPI_Comm *made;
    MPI_Info info;
    int (*set_info)(MPI_Comm c, MPI_Info info);
    int offered, free;                            /* by this rank, and by all that it has heard of */
    unsigned heard;
    int error, done;
} *open;                                          /* in the order in which they were begun */

static int has_arrived(const struct group *g, int place)
{
    return rvmc_call(RVMC_IPROBE, rvmc_rank_at(g->of, place), g->tag, RVMC_TWIN, 0, 0, 0).value != 0;
}

/* Hears of the others, waiting or as far as they have told. Returns whether all have. */
RVMC_INLINE int hear(struct copy *copy, int wait)
{
    struct group *g = &copy->g;

    for (int r = 0; r < g->size && !g->code; r++) {
        int free = 0;

        if (r == g->me || (copy->heard >> r & 1))
            continue;
        if (!wait && !has_arrived(g, r))
            return 0;
        take(g, &free, 1, MPI_INT, r);
        copy->free &= free;
        copy->heard |= 1u << r;
    }
    return 1;
}

/* The copy of a communicator that was begun first. */
static struct copy *first_of(MPI_Comm c)
{
    struct copy *copy = open;

    while (copy->g.communicator != c)
        copy = copy->next;
    return copy;
}

static void make(struct copy *copy)
{
    MPI_Comm from = copy->g.communicator;
    struct copy **at = &open;

    while (*at != copy)
        at = &(*at)->next;
    *at = copy->next;
    copy->done = 1;
    copy->error = rvmc_make_copy(&copy->g, copy->free, copy->made);
    if (!copy->error && copy->info != MPI_INFO_NULL)
        copy->error = copy->set_info(*copy->made, copy->info);
    for (struct copy *other = open; other && *copy->made != MPI_COMM_NULL; other = other->next)
        other->free &= ~(1 << *copy->made);
    rvmc_closed(from);
}

/* The contexts that a rank has offered, but for copies of one communicator. */
static int reserved(MPI_Comm except)
{
    int all = 0;

    for (struct copy *copy = open; copy; copy = copy->next)
        if (copy->g.communicator != except)
            all |= copy->offered;
    return all;
}

/* Waits for all that are open. */
static void settle(void)
{
    while (open) {
        hear(open, 1);
        make(open);
    }
}

/* There have to be enough for all copies of the communicator that are open. */
static int offer(MPI_Comm c)
{
    int free = rvmc_contexts & ~reserved(c), alike = c == MPI_COMM_WORLD ? LOW : c & 1 ? ODD : EVEN, left;

    if (!free) {
        settle();
        free = rvmc_contexts;
    }
    left = free & alike;
    for (struct copy *copy = open; copy; copy = copy->next)
        if (copy->g.communicator == c)
            left &= left - 1;
    return left ? free & alike : free;
}

static int go_on(struct copy *copy, int wait)
{
    while (!copy->done) {
        struct copy *first = first_of(copy->g.communicator);

        if (!hear(first, wait))
            return 0;
        make(first);
    }
    return 1;
}

static void freed(void *thing)
{
    free(thing);
}

static MPI_Request inner(MPI_Request request)
{
    return go_on(rvmc_owned(request), 0) ? MPI_REQUEST_NULL : RVMC_NOT_YET;
}

static long started(MPI_Request request)
{
    (void)request;
    return RVMC_BAD_REQUEST;
}

static long asked(long number, MPI_Request *request, int *flag, MPI_Status *status)
{
    struct copy *copy = rvmc_owned(*request);

    *flag = go_on(copy, number == RVMC_WAIT);
    if (!*flag)
        return RVMC_OK;
    if (status)
        *status = rvmc_empty_status;
    rvmc_later_error = copy->error;
    rvmc_call(RVMC_REQUEST_FREE, *request, 0, 0, 0, 0, 0);
    free(copy);
    *request = MPI_REQUEST_NULL;
    return rvmc_later_error ? RVMC_LATER_FAILED : RVMC_OK;
}

static int begin(struct group *g, MPI_Comm *made, MPI_Info info, int (*set_info)(MPI_Comm c, MPI_Info info),
                 MPI_Request *request)
{
    static const struct rvmc_owner owner = {asked, started, inner, freed, 1};
    struct copy *copy = g->code ? 0 : malloc(sizeof *copy), **end = &open;
    int offered;
    rvmc_answer a = {g->code ? g->code : copy ? RVMC_OK : RVMC_NO_MEMORY, 0};

    *made = MPI_COMM_NULL;
    if (!a.code && RVMC_NUMBER(rvmc_harts) > 1)
        a.code = RVMC_SEVERAL_HARTS;
    if (!a.code)
        a = rvmc_call(RVMC_SEND_INIT, 0, 0, MPI_PROC_NULL, 0, MPI_COMM_WORLD, 0);
    fault(g, a.code, 0, 0, 0);
    if (rvmc_made(a, request, 0)) {
        free(copy);
        return finish(g);
    }
    rvmc_hooks.settled = settle;
    rvmc_hooks.reserved = reserved;
    offered = offer(g->communicator);
    g->tag = RVMC_TAG_IDUP + g->communicator;
    *copy = (struct copy){0, *g, made, info, set_info, offered, offered, 0, 0, 0};
    for (int r = 0; r < g->size; r++)
        if (r != g->me)
            give(&copy->g, &offered, 1, MPI_INT, r);
    while (*end)
        end = &(*end)->next;
    *end = copy;
    rvmc_opened(g->communicator);
    rvmc_own_request(*request, &owner, copy);
    return finish(&copy->g);
}

int MPI_Comm_idup(MPI_Comm c, MPI_Comm *made, MPI_Request *request)
{
    struct group g = rvmc_group("MPI_Comm_idup", c);

    return begin(&g, made, MPI_INFO_NULL, 0, request);
}

static int set_and_free(MPI_Comm c, MPI_Info info)
{
    int error = MPI_Comm_set_info(c, info);

    MPI_Info_free(&info);
    return error;
}

int MPI_Comm_idup_with_info(MPI_Comm c, MPI_Info info, MPI_Comm *made, MPI_Request *request)
{
    struct group g = rvmc_group("MPI_Comm_idup_with_info", c);
    MPI_Info copy = MPI_INFO_NULL;
    int error = g.code || info == MPI_INFO_NULL ? MPI_SUCCESS : MPI_Info_dup(info, &copy);

    return error ? error : begin(&g, made, copy, set_and_free, request);
}
