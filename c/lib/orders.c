/* orders.c: compares the collectives of a communicator's ranks (orders.h), and tells where they differ. */
#include <stddef.h>
#include <string.h>
#include "../mpi.h"
#include "contexts.h"
#include "errors.h"
#include "group.h"
#include "places.h"

/* The digest is a sum of calls, each times a power of the factor. It has an inverse modulo 2^32, so it can be taken back. Of calls
   whose order is changed it differs: neither the factor less 1 nor its square less 1 has many factors of 2. */
#define FACTOR 0x85ebca6bu
#define INVERSE 0xa5cb9243u
enum { STEPS = 64, MARKS = 30, LASTING = 16, CALL_BITS = 12 };

/* What a rank keeps of a communicator, and sends at its end: no more of it than there is. The step of the head is 0, as no call's. */
static struct order {
    struct rvmc_head head;
    struct rvmc_step steps[STEPS];                /* the last calls: that of number n at n - 1 */
    unsigned marks[MARKS];                        /* the digests of the first 1, 2, 4 .. */
    struct lasting {                              /* persistent ones: every 16th has the same place */
        struct rvmc_step step;
        unsigned starts, number;
    } lasting[LASTING];
    struct rvmc_step made;                        /* the call that made the communicator, or 0 */
    unsigned ended;                               /* bit r: rank r is known to have come to the end */
} rvmc_orders[RVMC_COMMUNICATORS];

/* In the place of a rank's order, where it ends without MPI_Finalize. */
static const struct rvmc_head left = {.point = {.step = {0, 1}, .digest = 1}};

#define RVMC_NAME(name) const char rvmc_name_##name[] = "MPI_" #name;
RVMC_NAMES(RVMC_NAME)

/* --- counting --- */

static struct rvmc_step step_of(const struct group *g)
{
    unsigned call = (unsigned)(unsigned long)g->call << CALL_BITS, op = g->op < RVMC_OWN_OPS ? (unsigned)g->op : RVMC_OWN_OPS;

    return (struct rvmc_step){call | (unsigned)(g->root + 1) << 8 | op, (unsigned)(unsigned long)g->place};
}

void rvmc_count(struct group *g)
{
    struct order *o = rvmc_orders + g->communicator;
    struct rvmc_point *all = &o->head.point;
    struct rvmc_step step = step_of(g);

    g->uncounted = 0;
    g->point.before = o->steps[(all->number - 1) % STEPS];
    g->point.step = o->steps[all->number % STEPS] = step;
    g->point.number = ++all->number;
    g->point.digest = all->digest = all->digest * FACTOR + step.what;
    if (!(all->number & (all->number - 1)))
        o->marks[__builtin_ctz(all->number)] = all->digest;
}

/* The number of such a call is 0, so no call that is counted takes its message for one of its own. */
void rvmc_order_stops(struct group *g)
{
    const struct rvmc_point *all = &rvmc_orders[g->communicator].head.point;

    out_of_count(g);
    g->point.before = (struct rvmc_step){all->number, all->digest};
}

void rvmc_order_begins(MPI_Comm c, const struct group *g)
{
    struct order *o = rvmc_orders + c;

    o->head = (struct rvmc_head){.count = 0};
    o->ended = 0;
    o->made = step_of(g);
}

/* head.count is how many persistent ones were made. */
void rvmc_order_lasts(const struct group *g, int number)
{
    struct order *o = rvmc_orders + g->communicator;
    struct lasting *one = o->lasting + number % LASTING;

    if (o->head.count++ < LASTING)
        one->starts = 0;
    one->step = g->point.step;
    one->number = g->point.number;
}

void rvmc_order_starts(MPI_Comm c, int number)
{
    rvmc_orders[c].lasting[number % LASTING].starts++;
}

/* --- where two orders differ --- */

static struct difference {
    enum { SAME, OTHERS, LEFT_OUT, APART, OLD, MORE, STARTS } kind;
    MPI_Comm communicator;
    struct rvmc_step made;
    int other;                                    /* the rank that this one differs from */
    struct rvmc_step theirs, mine;                /* a step of 0 is none: the rank left it out, or has come to the end */
    unsigned their_number, my_number;
    int they_are, i_am;                           /* whether a rank is in that call still, as far as is known */
    unsigned number;                              /* of a persistent one, where numbers are how often it was started */
    int earlier;                                  /* calls before differ too */
} unheeded;                                       /* what an error handler returned first */
void (*rvmc_unheeded)(void);

/* How far an order had come, of the calls that are known: the last ones, of an order or of a head. */
struct walk {
    unsigned number, digest;
    const struct rvmc_step *steps;
    unsigned last, known;
};

/* Of an order, or of an end that has only how far it had come. */
static struct walk along(const struct order *o)
{
    const struct rvmc_point *all = &o->head.point;

    if (!all->number)
        return (struct walk){all->before.what, all->before.place, 0, all->before.what, 0};
    return (struct walk){all->number, all->digest, o->steps, all->number, STEPS};
}

static struct walk along_point(const struct rvmc_point *p)
{
    return (struct walk){p->number, p->digest, &p->before, p->number, 2};
}

static int is_known(const struct walk *w, unsigned number)
{
    return number > 0 && number <= w->last && w->last - number < w->known;
}

static struct rvmc_step step_at(const struct walk *w, unsigned number)
{
    if (!is_known(w, number))
        return (struct rvmc_step){0, 0};
    return w->known == STEPS ? w->steps[(number - 1) % STEPS] : w->steps[w->known - 1 - (w->last - number)];
}

static int back(struct walk *w)
{
    if (!is_known(w, w->number))
        return 0;
    w->digest = (w->digest - step_at(w, w->number--).what) * INVERSE;
    return 1;
}

static int back_to(struct walk *w, unsigned number)
{
    while (w->number > number && back(w))
        ;
    return w->number == number;
}

/* Goes back to where both were the same. Returns whether that is known. */
static int back_to_same(struct walk *a, struct walk *b)
{
    unsigned both = a->number < b->number ? a->number : b->number;

    if (back_to(a, both) && back_to(b, both))
        while (a->digest != b->digest && back(a) && back(b))
            ;
    return a->number == b->number && a->digest == b->digest;
}

/* Whether a step frees the communicator: behind it there are no more, as at an end. */
static int frees(struct rvmc_step step)
{
    const char *name = step.what ? rvmc_called(step) : "";

    return !strcmp(name, "MPI_Comm_free") || !strcmp(name, "MPI_Comm_disconnect");
}

static struct difference none_of(MPI_Comm c, int other)
{
    return (struct difference){.communicator = c, .made = rvmc_orders[c].made, .other = other};
}

/* The first call that differs, of two orders that are the same before. Who frees the communicator has left it out. */
static void first_of(struct difference *d, const struct walk *me, const struct walk *they)
{
    const struct rvmc_step none = {0, 0};

    d->my_number = d->their_number = me->number + 1;
    d->mine = step_at(me, me->number + 1);
    d->theirs = step_at(they, me->number + 1);
    if (frees(d->mine) && !frees(d->theirs) && d->theirs.what)
        d->mine = none;
    if (frees(d->theirs) && !frees(d->mine) && d->mine.what)
        d->theirs = none;
    d->kind = d->mine.what && d->theirs.what ? OTHERS : LEFT_OUT;
}

/* How many calls at the beginning are known to be the same. */
static unsigned agreed(const struct order *mine, const struct order *theirs)
{
    unsigned number = 0;

    for (int i = 0; i < MARKS && mine->head.point.number >> i && theirs->head.point.number >> i; i++)
        if (mine->marks[i] == theirs->marks[i])
            number = 1u << i;
    return number;
}

/* Persistent collectives are made in one order, and started in any. */
static struct difference of_starts(struct difference d, const struct order *mine, const struct order *theirs)
{
    for (int i = 0; i < LASTING && i < mine->head.count; i++) {
        if (mine->lasting[i].starts == theirs->lasting[i].starts)
            continue;
        d.kind = STARTS;
        d.mine = mine->lasting[i].step;
        d.theirs = theirs->lasting[i].step;
        d.my_number = mine->lasting[i].starts;
        d.their_number = theirs->lasting[i].starts;
        d.number = mine->lasting[i].number;
        break;
    }
    return d;
}

/* Of another rank that has come to the end, while this one is in the call of a number, or at the end too. */
static struct difference of_end(MPI_Comm c, int other, const struct order *theirs, unsigned now)
{
    const struct order *mine = rvmc_orders + c;
    struct walk me = along(mine), they = along(theirs);
    struct difference d = none_of(c, other);

    if (me.number == they.number && me.digest == they.digest && !now)
        return of_starts(d, mine, theirs);
    if (me.number == they.number && me.digest == they.digest) {
        d.kind = LEFT_OUT;                        /* by an error that its handler returned */
        d.mine = step_at(&me, now);
        d.my_number = d.their_number = now;
        d.i_am = 1;
        return d;
    }
    if (back_to_same(&me, &they)) {
        first_of(&d, &me, &they);
        d.i_am = d.my_number == now;
        return d;
    }
    d.kind = me.number == they.number ? OLD : MORE;
    d.my_number = d.kind == OLD ? me.number : me.last;
    d.their_number = d.kind == OLD ? agreed(mine, theirs) : they.last;
    return d;
}

/* Of another rank that is in a call, while this one is in the call of a number, or at the end. */
static struct difference of_point(MPI_Comm c, int other, const struct rvmc_point *theirs, unsigned now)
{
    struct walk me = along(rvmc_orders + c), they = along_point(theirs);
    struct difference d = none_of(c, other);
    int is_first = theirs->number && back_to_same(&me, &they);

    d.mine = step_at(&me, theirs->number);
    if (!is_first && d.mine.what && d.mine.what != theirs->step.what) {
        me.number = they.number = theirs->number - 1;
        d.earlier = 1;
    }
    first_of(&d, &me, &they);
    d.they_are = d.their_number == theirs->number;
    d.i_am = d.my_number == now;
    if ((is_first || d.earlier) && (d.kind == OTHERS || (!now && d.theirs.what)))
        return d;
    d.kind = APART;
    d.theirs = theirs->step;
    d.their_number = theirs->number;
    d.my_number = now ? now : rvmc_orders[c].head.point.number;
    d.mine = now ? step_at(&me, now) : (struct rvmc_step){0, 0};
    return d;
}

/* --- what is told --- */

static const char *ending(unsigned number)
{
    if (number / 10 % 10 == 1)
        return "th";
    return number % 10 == 1 ? "st" : number % 10 == 2 ? "nd" : number % 10 == 3 ? "rd" : "th";
}

static void put_place(struct rvmc_step step)
{
    const struct rvmc_place *place = rvmc_place_of((const void *)(unsigned long)step.place);

    if (place)
        rvmc_put(" at %s:%d", rvmc_file_of(place), (long)place->line);
}

/* The call, what of it differs from another one, and where it stands. */
static void put_step(struct rvmc_step step, struct rvmc_step other)
{
    int root = (int)(step.what >> 8 & 15) - 1, op = (int)(step.what & 255);

    rvmc_put("%s", rvmc_called(step));
    if (rvmc_called(step) == rvmc_called(other) && (step.what ^ other.what) >> 8)
        rvmc_put(" with root %d", (long)root);
    else if (rvmc_called(step) == rvmc_called(other) && step.what != other.what)
        rvmc_put(" with %s", op < RVMC_OWN_OPS ? rvmc_op_name(op) : "an operation of its own");
    put_place(step);
}

static void put_communicator(const struct difference *d)
{
    const char *name = rvmc_hooks.name ? rvmc_hooks.name(d->communicator) : 0;

    if (name && *name)
        rvmc_put("%s", name);
    else if (d->communicator == MPI_COMM_WORLD)
        rvmc_put("MPI_COMM_WORLD");
    else if (d->made.what)
        put_step((rvmc_put("the communicator of "), d->made), d->made);
    else
        rvmc_put("RVMC_COMM(%d)", (long)(d->communicator - MPI_COMM_SELF));
}

/* (the 3rd collective of MPI_COMM_WORLD) */
static void put_number(const struct difference *d, unsigned number)
{
    rvmc_put(" (the %d%s collective of ", (long)number, ending(number));
    put_communicator(d);
    rvmc_put("%s)", d->earlier ? ", behind others that differ" : "");
}

static void put_others(const struct difference *d)
{
    rvmc_put("rank %d %s in ", (long)d->other, d->they_are ? "is" : "was");
    put_step(d->theirs, d->mine);
    rvmc_put(" where rank %d %s in ", (long)rvmc_rank, d->i_am ? "is" : "was");
    put_step(d->mine, d->theirs);
    put_number(d, d->my_number);
}

static void put_left_out(const struct difference *d)
{
    int mine = d->mine.what != 0;
    struct rvmc_step step = mine ? d->mine : d->theirs;

    rvmc_put("rank %d %s in ", (long)(mine ? rvmc_rank : d->other), (mine ? d->i_am : d->they_are) ? "is" : "was");
    put_step(step, step);
    rvmc_put(", which rank %d left out", (long)(mine ? d->other : rvmc_rank));
    put_number(d, d->their_number);
}

static void put_apart(const struct difference *d)
{
    rvmc_put("rank %d is in ", (long)d->other);
    put_step(d->theirs, d->theirs);
    put_number(d, d->their_number);
    if (!d->mine.what) {
        rvmc_put(d->my_number < d->their_number ? ", and rank %d called only %d" : ", and rank %d in another one",
                 (long)rvmc_rank, (long)d->my_number);
        return;
    }
    rvmc_put(", rank %d in ", (long)rvmc_rank);
    put_step(d->mine, d->mine);
    rvmc_put(" (the %d%s)", (long)d->my_number, ending(d->my_number));
}

/* The first difference is so old that neither call is kept. */
static void put_old(const struct difference *d)
{
    int agreed = (int)d->their_number, all = (int)d->my_number;

    rvmc_put(agreed ? "ranks %d and %d agree in the first %d collectives of " : "ranks %d and %d differ in the first %d collectives of ",
             (long)rvmc_rank, (long)d->other, (long)(agreed ? agreed : all));
    put_communicator(d);
    if (agreed)
        rvmc_put(", and differ in the next %d", (long)(all - agreed));
}

/* One rank has called so many more that it's unknown which. */
static void put_more(const struct difference *d)
{
    rvmc_put("rank %d called %d collectives of ", (long)d->other, (long)d->their_number);
    put_communicator(d);
    rvmc_put(", rank %d %d", (long)rvmc_rank, (long)d->my_number);
}

static void put_starts(const struct difference *d)
{
    rvmc_put("rank %d started %s", (long)d->other, rvmc_called(d->theirs));
    put_place(d->theirs);
    rvmc_put(d->their_number == 1 ? " %d time" : " %d times", (long)d->their_number);
    rvmc_put(d->my_number == 1 ? ", rank %d %d time" : ", rank %d %d times", (long)rvmc_rank, (long)d->my_number);
    put_number(d, d->number);
}

static void tell(const struct difference *d)
{
    static void (*const put[])(const struct difference *) =
        {0, put_others, put_left_out, put_apart, put_old, put_more, put_starts};

    rvmc_begin_line();
    rvmc_put("collective mismatch: ");
    put[d->kind](d);
    rvmc_put("\n");
}

/* At MPI_Finalize no rank is in the call any more. */
static void tell_unheeded(void)
{
    unheeded.they_are = unheeded.i_am = 0;
    tell(&unheeded);
}

/* What the handler of the communicator makes of it: what the call returns, or 0 for what is told and traps. */
static int told(const struct difference *d)
{
    unsigned differs = d->theirs.what ^ d->mine.what;
    int error = d->kind != OTHERS || differs >> CALL_BITS ? MPI_ERR_OTHER : differs >> 8 ? MPI_ERR_ROOT : MPI_ERR_OP;
    int answer = rvmc_handled(d->communicator, error);

    if (!answer) {
        tell(d);
    } else if (!rvmc_unheeded) {
        unheeded = *d;
        rvmc_unheeded = tell_unheeded;
    }
    return answer;
}

/* --- messages of collectives --- */

static int is_end(const struct rvmc_head *head)
{
    return !rvmc_called(head->point.step);
}

/* Whether there is a head: what follows a message that was too long for its receive has none. */
static int is_head(const struct rvmc_head *head, long bytes)
{
    const char *name = rvmc_called(head->point.step);

    return bytes >= RVMC_HEAD && (!name || (name < rvmc_stacks && !memcmp(name, "MPI_", 4)));
}

static int is_left(const struct rvmc_head *head)
{
    return is_end(head) && head->point.step.place == left.point.step.place;
}

static struct difference difference_of(const struct group *g)
{
    const struct rvmc_head *theirs = (const struct rvmc_head *)g->argument;

    if (is_end(theirs))
        return of_end(g->communicator, (int)g->value, (const struct order *)theirs, g->point.number);
    return of_point(g->communicator, (int)g->value, &theirs->point, g->point.number);
}

/* One that ended without MPI_Finalize sends nothing more: whoever waits for it in a call waits for ever, but in MPI_Finalize. */
int rvmc_out_of_order(struct group *g, const void *message, int from, long bytes)
{
    const struct rvmc_head *theirs = message;

    if (is_head(theirs, bytes) && is_left(theirs) && !g->point.number)
        return 0;
    while (is_head(theirs, bytes) && is_left(theirs))
        rvmc_call(RVMC_RECV, (long)message, RVMC_PIECE, from, g->tag, RVMC_TWIN, 0);
    if (!is_head(theirs, bytes)) {
        fault(g, RVMC_OTHER_COUNT, 0, from, g->count);
        return 0;
    }
    if (!is_end(theirs) && theirs->point.number == g->point.number && theirs->point.step.what == g->point.step.what)
        return 1;
    if (is_end(theirs))
        rvmc_orders[g->communicator].ended |= 1u << from;
    fault(g, RVMC_MISORDER, message, from, 0);
    return 0;
}

int rvmc_wrong_order(const struct group *g)
{
    struct difference d = difference_of(g);

    return told(&d);
}

/* --- the end of a communicator --- */

static int lowest_of(const struct rvmc_communicator *of)
{
    int lowest = rvmc_rank_at(of, 0);

    for (int place = 1; place < of->size; place++)
        if (rvmc_rank_at(of, place) < lowest)
            lowest = rvmc_rank_at(of, place);
    return lowest;
}

static void give_order(MPI_Comm c, int to)
{
    const struct order *o = rvmc_orders + c;
    int is_short = o->head.point.number < STEPS && !o->head.count;
    long size = is_short ? RVMC_HEAD + (long)o->head.point.number * (long)sizeof *o->steps : (long)offsetof(struct order, made);

    rvmc_call(RVMC_SEND, (long)o, size, to, RVMC_TAG_COLLECTIVE + c, RVMC_TWIN, RVMC_IS_BUFFERED);
}

/* Hears of another rank up to its end. Returns the call's error, or 0 for what was told and traps. */
static int hear_order(MPI_Comm c, int from, int (*told_by)(const struct difference *d))
{
    const char *message = head_room(0);
    const struct rvmc_head *theirs = (const struct rvmc_head *)message;
    int error = MPI_SUCCESS, is_over;

    do {
        struct difference d = none_of(c, from);
        MPI_Status status;

        rvmc_call(RVMC_RECV, (long)message, RVMC_PIECE, from, RVMC_TAG_COLLECTIVE + c, RVMC_TWIN, (long)&status);
        is_over = is_head(theirs, status.rvmc_bytes) && is_end(theirs);
        if (is_over && !is_left(theirs))
            d = of_end(c, from, (const struct order *)message, 0);
        else if (is_head(theirs, status.rvmc_bytes) && !is_over)
            d = of_point(c, from, &theirs->point, 0);
        if (d.kind && !error)
            error = rvmc_trapped(told_by(&d));
    } while (!is_over);
    return error;
}

/* The lowest rank hears of all others, so no rank waits for one that waits for it. */
static int meet(MPI_Comm c, const struct rvmc_communicator *of, int (*told_by)(const struct difference *d))
{
    int lowest = lowest_of(of), error = MPI_SUCCESS;

    if (rvmc_rank != lowest) {
        give_order(c, lowest);
        return MPI_SUCCESS;
    }
    for (int place = 0; place < of->size; place++)
        if (rvmc_rank_at(of, place) != lowest && !(rvmc_orders[c].ended >> rvmc_rank_at(of, place) & 1)) {
            int one = hear_order(c, rvmc_rank_at(of, place), told_by);

            error = error ? error : one;
        }
    return error;
}

int rvmc_order_ends(const char *call, MPI_Comm c, const void *place)
{
    struct group g = rvmc_group_at(call, c, place);

    rvmc_count(&g);
    return meet(c, g.of, told);
}

/* At MPI_Finalize a difference is told whatever the handler. */
static int told_at_last(const struct difference *d)
{
    tell(d);
    return 0;
}

void rvmc_end_orders(void)
{
    if (rvmc_unheeded) {
        rvmc_unheeded();
        rvmc_trapped(0);
    }
    for (MPI_Comm c = 0; c < RVMC_COMMUNICATORS; c++) {
        const struct rvmc_communicator *of = rvmc_known(c);

        if (of && of->size > 1)
            meet(c, of, told_at_last);
    }
}

void __real__exit(int code) __attribute__((noreturn));

static void say_left(MPI_Comm c, int to)
{
    rvmc_call(RVMC_SEND, (long)&left, sizeof left, to, RVMC_TAG_COLLECTIVE + c, RVMC_TWIN, RVMC_IS_BUFFERED);
}

/* The lowest rank of each communicator waits no more for one that ends like this; nor does any rank at the end of --check. */
void rvmc_leave(int code)
{
    int begun = rvmc_hart == 0 && rvmc_state == RVMC_BEGUN;

    for (MPI_Comm c = 0; c < RVMC_COMMUNICATORS && begun; c++) {
        const struct rvmc_communicator *of = rvmc_known(c);

        if (of && lowest_of(of) != rvmc_rank)
            say_left(c, lowest_of(of));
    }
    for (int rank = 0; begun && RVMC_NUMBER(rvmc_check_traps) && rank < rvmc_table[MPI_COMM_WORLD].size; rank++)
        if (rank != rvmc_rank)
            say_left(MPI_COMM_WORLD, rank);
    __real__exit(code);
}
