/* threads.h: C11's threads and mutexes (ISO C11, 7.26) over the harts of a rank. A thread needs a hart: thrd_create takes one
   that has no thread, and says thrd_nomem where there is none. rvmc-cc --harts says how many there are; hart 0 is main. */
#ifndef THREADS_H
#define THREADS_H
#include "lib/call.h"

#define thread_local _Thread_local

typedef int (*thrd_start_t)(void *);
typedef int thrd_t;                               /* the hart's number */
typedef struct {
    int number, kind, owner, depth;
} mtx_t;

enum { thrd_success, thrd_busy, thrd_error, thrd_nomem, thrd_timedout };
enum { mtx_plain = 0, mtx_recursive = 1, mtx_timed = 2 };

int thrd_create(thrd_t *thread, thrd_start_t function, void *argument);
int thrd_join(thrd_t thread, int *result);
void thrd_exit(int result) __attribute__((noreturn));
static inline thrd_t thrd_current(void) { return rvmc_hart; }
static inline int thrd_equal(thrd_t a, thrd_t b) { return a == b; }
static inline void thrd_yield(void) { }

int mtx_init(mtx_t *mutex, int kind);
int mtx_lock(mtx_t *mutex);
int mtx_trylock(mtx_t *mutex);
int mtx_unlock(mtx_t *mutex);
void mtx_destroy(mtx_t *mutex);

#define RVMC_NO_THREAD_CALL __attribute__((unavailable("rvmc: <threads.h> has threads, joins and plain or recursive mutexes")))
typedef int cnd_t RVMC_NO_THREAD_CALL;
typedef int tss_t RVMC_NO_THREAD_CALL;
typedef int once_flag RVMC_NO_THREAD_CALL;
int thrd_detach() RVMC_NO_THREAD_CALL;
int thrd_sleep() RVMC_NO_THREAD_CALL;
int mtx_timedlock() RVMC_NO_THREAD_CALL;
int cnd_init() RVMC_NO_THREAD_CALL;
int cnd_wait() RVMC_NO_THREAD_CALL;
int cnd_signal() RVMC_NO_THREAD_CALL;
int cnd_broadcast() RVMC_NO_THREAD_CALL;
int tss_create() RVMC_NO_THREAD_CALL;
void call_once() RVMC_NO_THREAD_CALL;

#endif
