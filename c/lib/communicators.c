/* communicators.c: the table of communicators (communicators.h), and what stands between MPI's ranks and the machine's. */
#include "../mpi.h"
#include "errors.h"
#include "contexts.h"

enum { CONTEXTS = 0xfc };                         /* 2 to 7 */

struct rvmc_communicator rvmc_table[RVMC_COMMUNICATORS];
struct rvmc_maker rvmc_makers[RVMC_COMMUNICATORS];
unsigned char rvmc_contexts = CONTEXTS;
const char rvmc_no_context[] =
    "6 communicators beside MPI_COMM_WORLD are in use at one time, and no more are served: MPI_Comm_free";

/* The two that are always there are filled in when they are asked for first. */
static void begin(struct rvmc_communicator *of, int world)
{
    int size = world ? (int)rvmc_call(RVMC_SIZE, MPI_COMM_WORLD, 0, 0, 0, 0, 0).value : 1;

    of->ranks = world ? 0x76543210 : (unsigned)rvmc_rank;
    of->places = world ? 0x76543210 : ~((unsigned)RVMC_NOWHERE << 4 * rvmc_rank);
    of->me = (signed char)(world ? rvmc_rank : 0);
    of->context = (signed char)(world ? 0 : -1);
    __asm__ volatile("" ::: "memory");            /* another hart may read the size */
    of->size = (signed char)size;
}

const struct rvmc_communicator *rvmc_known(MPI_Comm c)
{
    struct rvmc_communicator *of = rvmc_table + c;

    if (c < 0 || c >= RVMC_COMMUNICATORS)
        return 0;
    if (c <= MPI_COMM_SELF && !of->size)
        begin(of, c == MPI_COMM_WORLD);
    return of->size && !of->freed && of->me >= 0 ? of : 0;
}

/* With several harts the table changes under the lock of the heap. */
struct __lock;
extern struct __lock __lock___libc_recursive_mutex;
void __retarget_lock_acquire_recursive(struct __lock *lock);
void __retarget_lock_release_recursive(struct __lock *lock);

void rvmc_lock(void)
{
    __retarget_lock_acquire_recursive(&__lock___libc_recursive_mutex);
}

void rvmc_unlock(void)
{
    __retarget_lock_release_recursive(&__lock___libc_recursive_mutex);
}

/* What a copy that is being made may get isn't free for another communicator. */
int rvmc_free_contexts(void)
{
    int free = rvmc_contexts;

    if (rvmc_hooks.reserved)
        free &= ~rvmc_hooks.reserved(MPI_COMM_NULL);
    if (!free && rvmc_hooks.settled) {
        rvmc_hooks.settled();
        free = rvmc_contexts;
    }
    return free;
}

/* Takes one of the free contexts, or the first of them for -1. Returns -1 where it isn't free. rvmc-cc writes the contexts into
   an image that has this function. */
__attribute__((noinline)) int rvmc_take_context(int context)
{
    if (context < 0) {
        int free = rvmc_free_contexts();

        context = free ? __builtin_ctz((unsigned)free) : 0;
    }
    if (!(rvmc_contexts >> context & 1))
        return -1;
    rvmc_contexts &= (unsigned char)~(1 << context);
    return context;
}

/* Up to the choice of a context, another hart of the rank can't take one. Who waits is woken by a message, and has the turn
   then. */
static int busy, waiting;

void rvmc_begin_context(void)
{
    int wait;

    if (RVMC_NUMBER(rvmc_harts) == 1)
        return;
    rvmc_lock();
    wait = busy;
    waiting += wait;
    busy = 1;
    rvmc_unlock();
    if (wait)
        rvmc_call(RVMC_RECV, 0, 0, rvmc_rank, RVMC_TAG_CONTEXT, RVMC_TWIN, 0);
}

void rvmc_end_context(void)
{
    int wake;

    if (RVMC_NUMBER(rvmc_harts) == 1)
        return;
    rvmc_lock();
    wake = waiting > 0;
    waiting -= wake;
    busy = wake;
    rvmc_unlock();
    if (wake)
        rvmc_call(RVMC_SEND, 0, 0, rvmc_rank, RVMC_TAG_CONTEXT, RVMC_TWIN, RVMC_IS_BUFFERED);
}

long rvmc_context_of(MPI_Comm c)
{
    const struct rvmc_communicator *of = rvmc_known(c);

    if (!of)
        return -1;
    if (of->context < 0) {
        rvmc_begin_context();
        if (of->context < 0)
            rvmc_table[c].context = (signed char)rvmc_take_context(-1);
        rvmc_end_context();
    }
    return of->context;
}

/* 127 is no rank of the machine. MPI_ANY_SOURCE and MPI_PROC_NULL are the same everywhere. */
long rvmc_there_in(MPI_Comm c, int rank)
{
    const struct rvmc_communicator *of = rvmc_known(c);

    if (rank < 0)
        return rank;
    return of && rank < of->size ? rvmc_rank_at(of, rank) : 127;
}

/* Of a communicator that was freed meanwhile, too. */
void rvmc_here_in(MPI_Comm c, MPI_Status *status)
{
    if (c > 0 && c < RVMC_COMMUNICATORS && status->MPI_SOURCE >= 0)
        status->MPI_SOURCE = rvmc_position(rvmc_table + c, status->MPI_SOURCE);
}

long rvmc_asked_elsewhere(long number, MPI_Comm c, int *value)
{
    const struct rvmc_communicator *of = rvmc_known(c);

    if (!of)
        return RVMC_BAD_COMM;
    *value = number == RVMC_RANK ? of->me : of->size;
    return RVMC_OK;
}

void rvmc_opened(MPI_Comm c)
{
    if (c <= 0 || c >= RVMC_COMMUNICATORS)
        return;
    rvmc_lock();
    rvmc_table[c].open++;
    rvmc_unlock();
}

/* Behind the last request of a communicator that was freed its context is free. */
void rvmc_closed(MPI_Comm c)
{
    struct rvmc_communicator *of = rvmc_table + c;

    if (c <= 0 || c >= RVMC_COMMUNICATORS)
        return;
    rvmc_lock();
    if (!--of->open && of->freed) {
        if (rvmc_hooks.freed_topology)
            rvmc_hooks.freed_topology(c);
        rvmc_contexts |= (unsigned char)(1 << of->context);
        of->freed = 0;
        of->size = 0;
    }
    rvmc_unlock();
}

/* Behind a call that completed a request. A persistent one is open until it is freed. */
void rvmc_completed_elsewhere(MPI_Comm c, int kind, MPI_Status *status)
{
    if (status)
        rvmc_here_in(c, status);
    if (!(kind & (RVMC_PERSISTENT | RVMC_PARTITIONED)))
        rvmc_closed(c);
}
