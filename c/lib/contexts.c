/* contexts.c: making and freeing communicators (MPI 4.1, 7.4). The members tell each other which contexts they have free, and
   take the first that all have. Where ranks have several harts, two of a rank may do so at the same time, for communicators
   of other ranks each. So there all members are waited for first, and then each in turn, in the order of MPI_COMM_WORLD,
   keeps other harts from its contexts until one is chosen: since all go in the same order, nobody waits for ever. */
#include "../mpi.h"
#include "errors.h"
#include "group.h"
#include "contexts.h"

struct rvmc_hooks rvmc_hooks;

/* What is known of a group of ranks before it has a context. */
static struct rvmc_communicator of_group(MPI_Group group, int context)
{
    unsigned ranks = 0, places = ~0u;

    for (int place = 0; place < rvmc_group_size(group); place++) {
        int rank = rvmc_member_at(group, place);

        ranks |= (unsigned)rank << 4 * place;
        places ^= (unsigned)(place ^ RVMC_NOWHERE) << 4 * rank;
    }
    return (struct rvmc_communicator){ranks, places, (signed char)rvmc_group_size(group),
                                      (signed char)rvmc_group_place(group, rvmc_rank), (signed char)context, 0, 0, 0, 0, 0};
}

/* The communicators of rvmc-cc --comm, before main: for each how many ranks, and these. Every rank takes the context. */
extern const unsigned char rvmc_lists[];
void rvmc_declare(void);

void rvmc_declare(void)
{
    for (const unsigned char *list = rvmc_lists; *list; list += *list + 1) {
        MPI_Group group = MPI_GROUP_EMPTY;
        int context = rvmc_take_context(-1);

        for (int i = 1; i <= *list; i++)
            group = rvmc_group_and(group, list[i]);
        rvmc_table[context] = of_group(group, context);
    }
}

/* --- telling, and making --- */

enum { MOST = 8, WORDS = 3 };
struct told {
    int free, color, key;
};

/* Each says what it has to say to the first place, which says it to all. */
RVMC_INLINE void tell_all(struct group *g, struct told mine, struct told *all)
{
    if (g->me) {
        give(g, &mine, WORDS, MPI_INT, 0);
        take(g, all, (long)WORDS * g->size, MPI_INT, 0);
        return;
    }
    all[0] = mine;
    for (int r = 1; r < g->size; r++)
        take(g, all + r, WORDS, MPI_INT, r);
    for (int r = 1; r < g->size; r++)
        give(g, all, (long)WORDS * g->size, MPI_INT, r);
}

/* A new communicator has the error handler of that which it was made of (9.3). */
static void inherit(MPI_Comm from, MPI_Comm to)
{
    rvmc_handlers[to] = rvmc_handlers[from];
    if (rvmc_hooks.used_handler)
        rvmc_hooks.used_handler(rvmc_handlers[to], 1);
}

/* The places of g, as bits, that a new communicator is for, and the contexts that all of these have free. */
struct choice {
    unsigned places;
    int free;
};

/* Makes a choice where ranks have several harts; by rvmc_end_context the contexts are let go. */
RVMC_INLINE void choose_in_turn(struct group *g, struct choice *choice)
{
    int before = -1, behind = -1, last = -1;

    for (int rank = 0; rank < MOST; rank++) {
        int place = rvmc_position(g->of, rank);

        if (place < 0 || !(choice->places >> place & 1))
            continue;
        if (rank < rvmc_rank)
            before = place;
        if (rank > rvmc_rank && behind < 0)
            behind = place;
        last = place;
    }
    choice->free = ~0;
    if (before >= 0)
        take(g, &choice->free, 1, MPI_INT, before);
    rvmc_begin_context();
    choice->free &= rvmc_free_contexts();
    if (behind >= 0) {
        give(g, &choice->free, 1, MPI_INT, behind);
        take(g, &choice->free, 1, MPI_INT, last);
        return;
    }
    for (int place = 0; place < g->size; place++)
        if ((choice->places >> place & 1) && place != g->me)
            give(g, &choice->free, 1, MPI_INT, place);
}

/* Takes the first context that is free for all members, of which this rank is one or not. */
RVMC_INLINE int make(struct group *g, MPI_Group members, struct choice choice, MPI_Comm *made)
{
    int context = -1, mine = g->of && !g->code && (choice.places >> g->me & 1), in_turn = mine && RVMC_NUMBER(rvmc_harts) > 1;

    *made = MPI_COMM_NULL;
    if (in_turn)
        choose_in_turn(g, &choice);
    if (mine && !g->code && choice.free) {
        rvmc_lock();
        context = rvmc_take_context(__builtin_ctz((unsigned)choice.free));
        rvmc_table[context] = of_group(members, context);
        rvmc_unlock();
    }
    if (in_turn)
        rvmc_end_context();
    if (g->code)
        return finish(g);
    if (context < 0)
        return mine ? rvmc_trapped(rvmc_raise(g->call, g->communicator, MPI_ERR_OTHER, 0, rvmc_no_context)) : MPI_SUCCESS;
    *made = context;
    rvmc_makers[context] = (struct rvmc_maker){(unsigned)(long)g->place, (unsigned)(long)g->call, 0};
    inherit(g->communicator, context);
    rvmc_order_begins(context, g);
    return MPI_SUCCESS;
}

/* Of those with the same color, in the order of keys and then of places. */
static MPI_Group colored(const struct group *g, const struct told *all, int color)
{
    MPI_Group members = MPI_GROUP_EMPTY;
    int left = 0;

    for (int r = 0; r < g->size; r++)
        left |= (all[r].color == color) << r;
    while (left) {
        int next = -1;

        for (int r = 0; r < g->size; r++)
            if ((left >> r & 1) && (next < 0 || all[r].key < all[next].key))
                next = r;
        left &= ~(1 << next);
        members = rvmc_group_and(members, rvmc_rank_at(g->of, next));
    }
    return members;
}

/* All colors get the same context, for nobody is in two of them. */
int rvmc_split(struct group *g, int color, int key, MPI_Comm *made)
{
    struct told all[MOST];
    struct choice choice = {0, ~0};

    if (!g->code)
        tell_all(g, (struct told){rvmc_free_contexts(), color, key}, all);
    for (int r = 0; r < g->size && !g->code; r++)
        if (all[r].color != MPI_UNDEFINED) {
            choice.places |= 1u << r;
            choice.free &= all[r].free;
        }
    return make(g, g->code || color == MPI_UNDEFINED ? MPI_GROUP_EMPTY : colored(g, all, color), choice, made);
}

int MPI_Comm_split(MPI_Comm c, int color, int key, MPI_Comm *made)
{
    struct group g = rvmc_group("MPI_Comm_split", c);

    if (color < 0 && color != MPI_UNDEFINED)
        return rvmc_trapped(rvmc_raise(g.call, c, MPI_ERR_ARG, "color", "color %d is negative", (long)color));
    return rvmc_split(&g, color, key, made);
}

/* All ranks stand on one machine, as MPI_Get_processor_name says; of its parts there is nothing to know. */
int MPI_Comm_split_type(MPI_Comm c, int type, int key, MPI_Info info, MPI_Comm *made)
{
    struct group g = rvmc_group("MPI_Comm_split_type", c);

    (void)info;
    if (type != MPI_UNDEFINED && (type < MPI_COMM_TYPE_SHARED || type > MPI_COMM_TYPE_RESOURCE_GUIDED))
        return rvmc_trapped(rvmc_raise(g.call, c, MPI_ERR_ARG, "split_type", "%d is no type of a part", (long)type));
    return rvmc_split(&g, type == MPI_COMM_TYPE_SHARED ? 0 : MPI_UNDEFINED, key, made);
}

/* The same for all who name the same group. */
static int create(struct group *g, MPI_Group group, MPI_Comm *made)
{
    struct told all[MOST];
    struct choice choice = {0, ~0};

    if (!g->code)
        tell_all(g, (struct told){rvmc_free_contexts(), group, 0}, all);
    for (int r = 0; r < g->size && !g->code; r++)
        if (rvmc_group_place(group, rvmc_rank_at(g->of, r)) >= 0) {
            choice.places |= 1u << r;
            choice.free &= all[r].free;
        }
    if (!g->code && !(choice.places >> g->me & 1))
        choice.places = 0;
    return make(g, group, choice, made);
}

/* The first rank of a group that isn't in the communicator is told. */
static int wrong_members(const char *call, MPI_Comm c, MPI_Group group)
{
    const struct rvmc_communicator *of = rvmc_known(c);
    int error = rvmc_wrong_group(call, group);

    for (int place = 0; of && !error && place < rvmc_group_size(group); place++)
        if (rvmc_position(of, rvmc_member_at(group, place)) < 0)
            error = rvmc_trapped(rvmc_raise(call, c, MPI_ERR_GROUP, "group", "rank %d of the group isn't in the communicator",
                                            (long)place));
    return error;
}

int MPI_Comm_create(MPI_Comm c, MPI_Group group, MPI_Comm *made)
{
    struct group g = rvmc_group("MPI_Comm_create", c);
    int error = wrong_members(g.call, c, group);

    return error ? error : create(&g, group, made);
}

/* Only the members call it, so they talk among themselves: by a tag that has something of the call's. */
int MPI_Comm_create_group(MPI_Comm c, MPI_Group group, int tag, MPI_Comm *made)
{
    struct rvmc_communicator members = of_group(group, -1);
    struct group g = rvmc_group("MPI_Comm_create_group", c);
    int error = wrong_members(g.call, c, group);

    *made = MPI_COMM_NULL;
    if (error || (!g.code && members.me < 0))
        return error;
    if (tag < 0 || tag > RVMC_MOST_TAG)
        return rvmc_code(g.call, RVMC_BAD_TAG, 0, 0, 0, MPI_BYTE, 0, tag, c);
    g.of = &members;
    g.me = members.me;
    g.size = members.size;
    g.tag = RVMC_TAG_GROUP + 8 * c + (tag & 7);
    out_of_count(&g);
    return create(&g, group, made);
}

/* The context stays in use up to the end of the last receive that was posted in it (7.4.3). */
static void release(MPI_Comm c)
{
    if (rvmc_hooks.freed_name)
        rvmc_hooks.freed_name(c);
    if (rvmc_hooks.freed_info)
        rvmc_hooks.freed_info(c);
    if (rvmc_hooks.used_handler)
        rvmc_hooks.used_handler(rvmc_handlers[c], -1);
    rvmc_handlers[c] = MPI_ERRORS_ARE_FATAL;
    rvmc_lock();
    rvmc_table[c].freed = 1;
    rvmc_table[c].open++;
    rvmc_unlock();
    rvmc_closed(c);
}

/* What a copy has beside its ranks. */
static int copied(MPI_Comm c, int error, MPI_Comm *made)
{
    if (!error && rvmc_hooks.copied_topology)
        error = rvmc_hooks.copied_topology(c, *made);
    if (!error && rvmc_hooks.copied_attributes)
        error = rvmc_hooks.copied_attributes(c, *made);
    if (error && *made != MPI_COMM_NULL) {
        if (rvmc_hooks.freed_attributes)
            rvmc_hooks.freed_attributes(*made);
        release(*made);
        *made = MPI_COMM_NULL;
    }
    return error;
}

static int copy(struct group *g, MPI_Comm *made)
{
    return copied(g->communicator, create(g, g->of ? rvmc_group_of(g->of) : MPI_GROUP_EMPTY, made), made);
}

int MPI_Comm_dup(MPI_Comm c, MPI_Comm *made)
{
    struct group g = rvmc_group("MPI_Comm_dup", c);

    return copy(&g, made);
}

int rvmc_make_copy(struct group *g, int free, MPI_Comm *made)
{
    return copied(g->communicator, make(g, rvmc_group_of(g->of), (struct choice){~0u, free}, made), made);
}

int MPI_Comm_dup_with_info(MPI_Comm c, MPI_Info info, MPI_Comm *made)
{
    struct group g = rvmc_group("MPI_Comm_dup_with_info", c);
    int error = copy(&g, made);

    return error ? error : MPI_Comm_set_info(*made, info);
}

int MPI_Comm_compare(MPI_Comm c, MPI_Comm other, int *result)
{
    const struct rvmc_communicator *of = rvmc_known(c), *to = rvmc_known(other);

    if (rvmc_idle() || !of || !to)
        return rvmc_comm_code("MPI_Comm_compare", rvmc_idle() ? RVMC_NOT_BEGUN : RVMC_BAD_COMM, of ? other : c);
    *result = c == other ? MPI_IDENT : rvmc_group_like(rvmc_group_of(of), rvmc_group_of(to));
    if (c != other && *result == MPI_IDENT)
        *result = MPI_CONGRUENT;
    return MPI_SUCCESS;
}

RVMC_INLINE int free_one(const char *call, MPI_Comm *c, const void *place)
{
    int error = rvmc_comm_code(call, rvmc_idle() ? RVMC_NOT_BEGUN : rvmc_known(*c) ? RVMC_OK : RVMC_BAD_COMM, *c);

    if (!error && *c <= MPI_COMM_SELF)
        error = rvmc_trapped(rvmc_raise(call, *c, MPI_ERR_COMM, "comm", "%s can't be freed",
                                        *c == MPI_COMM_WORLD ? "MPI_COMM_WORLD" : "MPI_COMM_SELF"));
    if (!error && rvmc_hooks.freed_attributes)
        error = rvmc_hooks.freed_attributes(*c);
    if (error)
        return error;
    error = rvmc_order_ends(call, *c, place);
    release(*c);
    *c = MPI_COMM_NULL;
    return error;
}

int MPI_Comm_free(MPI_Comm *c)
{
    return free_one("MPI_Comm_free", c, __builtin_return_address(0));
}

int MPI_Comm_disconnect(MPI_Comm *c)
{
    return free_one("MPI_Comm_disconnect", c, __builtin_return_address(0));
}
