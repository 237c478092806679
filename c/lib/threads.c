/* threads.c: threads and mutexes over harts. There is no atomic instruction; what passes from hart to hart is a message of
   the rank to itself, in the twin. A hart that waits does so in RECV, from its own rank: so where no hart of
   the rank goes on, that is seen (docs/DEBUGGING.md), where one that looks again and again would run for ever. */
#include <setjmp.h>
#include "../threads.h"
#include "system.h"

enum { HARTS = 4, MUTEXES = 200 };
static const long canary = 0x5ca1ab1e5ca1ab1e;

static struct {
    thrd_start_t function;
    void *argument;
    int result;
    jmp_buf end;
} threads[HARTS];

static long pass(long tag, const void *buffer, long size)
{
    return rvmc_call(RVMC_SEND, (long)buffer, size, rvmc_rank, tag, RVMC_TWIN, RVMC_IS_BUFFERED).code;
}

RVMC_INLINE long await(long tag, void *buffer, long size)
{
    return rvmc_call(RVMC_RECV, (long)buffer, size, rvmc_rank, tag, RVMC_TWIN, 0).code;
}

/* Takes a message that is there, or says that there is none. */
static int take_now(long tag, void *buffer, long size)
{
    long message = rvmc_call(RVMC_IMPROBE, rvmc_rank, tag, RVMC_TWIN, 0, 0, 0).value;

    return message && !rvmc_call(RVMC_MRECV, (long)buffer, size, message, 0, 0, 0).code;
}

/* A hart without a thread is a message with its number, and the heap that nobody uses is one too. */
void rvmc_threads_begin(void)
{
    for (int hart = 1; hart < RVMC_NUMBER(rvmc_harts); hart++)
        pass(RVMC_TAG_FREE, &hart, sizeof hart);
    if (RVMC_NUMBER(rvmc_harts) > 1)
        pass(RVMC_TAG_HEAP, 0, 0);
}

/* Takes what begin has sent, so that no message is left where a run is asked for those. */
void rvmc_threads_end(void)
{
    int hart;

    while (take_now(RVMC_TAG_FREE, &hart, sizeof hart))
        ;
    take_now(RVMC_TAG_HEAP, 0, 0);
}

int thrd_create(thrd_t *thread, thrd_start_t function, void *argument)
{
    int hart;

    if (!take_now(RVMC_TAG_FREE, &hart, sizeof hart))
        return thrd_nomem;
    threads[hart].function = function;
    threads[hart].argument = argument;
    *thread = hart;
    return pass(RVMC_TAG_WORK + hart, 0, 0) ? thrd_error : thrd_success;
}

/* What start.S calls when a hart was woken: by a thread, or by the end of main. The stack of a hart above hart 0 ends where
   that of the hart below it begins, and no trap tells when it runs on; a word there tells afterwards. */
void rvmc_work(long hart)
{
    long *end = (long *)(rvmc_stacks + hart * RVMC_NUMBER(rvmc_stack));

    rvmc_hart = (int)hart;
    if (!threads[hart].function)
        _exit(0);
    *end = canary;
    if (!setjmp(threads[hart].end))
        threads[hart].result = threads[hart].function(threads[hart].argument);
    rvmc_put_line();
    if (*end != canary) {
        rvmc_tell("the stack of a thread is full, and has run into that of another hart", ": --stack gives more");
        __asm__ volatile("ebreak");
    }
    threads[hart].function = 0;
    pass(RVMC_TAG_DONE + hart, 0, 0);
}

int thrd_join(thrd_t thread, int *result)
{
    if (thread < 1 || thread >= RVMC_NUMBER(rvmc_harts))
        return thrd_error;
    await(RVMC_TAG_DONE + thread, 0, 0);
    if (result)
        *result = threads[thread].result;
    return pass(RVMC_TAG_FREE, &thread, sizeof thread) ? thrd_error : thrd_success;
}

/* C11 ends the program with its last thread; here main ends it, so main can't leave by thrd_exit and go on in others. */
void thrd_exit(int result)
{
    if (rvmc_hart == 0)
        _exit(result);
    threads[rvmc_hart].result = result;
    longjmp(threads[rvmc_hart].end, 1);
}

/* A mutex that is free is a message with its number as the tag. Numbers are the harts' own, since they count without a lock. */
int mtx_init(mtx_t *mutex, int kind)
{
    static int count[HARTS];

    if ((kind & ~mtx_recursive) || count[rvmc_hart] == MUTEXES)
        return thrd_error;
    mutex->number = rvmc_hart * MUTEXES + count[rvmc_hart]++;
    mutex->kind = kind;
    mutex->owner = -1;
    mutex->depth = 0;
    return pass(RVMC_TAG_MUTEX + mutex->number, 0, 0) ? thrd_error : thrd_success;
}

static int again(mtx_t *mutex)
{
    if (!(mutex->kind & mtx_recursive) || mutex->owner != rvmc_hart)
        return 0;
    mutex->depth++;
    return 1;
}

static int owned(mtx_t *mutex)
{
    mutex->owner = rvmc_hart;
    mutex->depth = 1;
    return thrd_success;
}

int mtx_lock(mtx_t *mutex)
{
    if (again(mutex))
        return thrd_success;
    return await(RVMC_TAG_MUTEX + mutex->number, 0, 0) ? thrd_error : owned(mutex);
}

int mtx_trylock(mtx_t *mutex)
{
    if (again(mutex))
        return thrd_success;
    return take_now(RVMC_TAG_MUTEX + mutex->number, 0, 0) ? owned(mutex) : thrd_busy;
}

int mtx_unlock(mtx_t *mutex)
{
    if (mutex->owner != rvmc_hart)
        return thrd_error;
    if (--mutex->depth)
        return thrd_success;
    mutex->owner = -1;
    return pass(RVMC_TAG_MUTEX + mutex->number, 0, 0) ? thrd_error : thrd_success;
}

void mtx_destroy(mtx_t *mutex)
{
    take_now(RVMC_TAG_MUTEX + mutex->number, 0, 0);
}

/* picolibc's locks: malloc, free and atexit take this one, once more where they have it. Others it doesn't take here. */
struct __lock {
    int owner, depth;
};
struct __lock __lock___libc_recursive_mutex = {-1, 0};

void __retarget_lock_acquire_recursive(struct __lock *lock)
{
    if (RVMC_NUMBER(rvmc_harts) == 1)
        return;
    if (lock->owner != rvmc_hart)
        await(RVMC_TAG_HEAP, 0, 0);
    lock->owner = rvmc_hart;
    lock->depth++;
}

void __retarget_lock_release_recursive(struct __lock *lock)
{
    if (RVMC_NUMBER(rvmc_harts) == 1 || --lock->depth)
        return;
    lock->owner = -1;
    pass(RVMC_TAG_HEAP, 0, 0);
}

/* Those of a file that fopen opened: it is one hart's, or the program's mutex guards it. */
void __retarget_lock_init(struct __lock **lock)
{
    *lock = 0;
}

void __retarget_lock_close(struct __lock *lock)
{
    (void)lock;
}

void __retarget_lock_acquire(struct __lock *lock)
{
    (void)lock;
}

void __retarget_lock_release(struct __lock *lock)
{
    (void)lock;
}
