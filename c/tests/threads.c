/* threads.c: threads over the four harts of one rank. With -DDEADLOCK=1 main and a thread take two mutexes in different
   orders, and wait for each other for ever. */
#include <mpi.h>
#include <stdio.h>
#include <stdlib.h>
#include <string.h>
#include <threads.h>

#ifndef DEADLOCK
#define DEADLOCK 0
#endif

enum { THREADS = 3, ROUNDS = 20 };

static mtx_t lock, other, again;
static int shared, bad;
static thread_local int own;

/* Counts under the mutex, by a read and a write that another hart could come between. */
static void count_up(void)
{
    int was;

    mtx_lock(&lock);
    was = shared;
    thrd_yield();
    shared = was + 1;
    mtx_unlock(&lock);
}

/* Blocks of the heap of all threads are apart: each keeps its own bytes. */
static void use_heap(int seed)
{
    char *blocks[4];

    for (int i = 0; i < 4; i++) {
        blocks[i] = malloc(10 + 7 * seed + i);
        memset(blocks[i], seed * 4 + i, 10);
    }
    for (int i = 0; i < 4; i++) {
        for (int at = 0; at < 10; at++)
            bad += blocks[i][at] != seed * 4 + i;
        free(blocks[i]);
    }
}

static int work(void *argument)
{
    int seed = *(int *)argument;

    own = seed;
    for (int i = 0; i < ROUNDS; i++) {
        count_up();
        use_heap(seed);
    }
    if (seed == 2)
        thrd_exit(own + 100);
    return own + 10;
}

static int nothing(void *argument)
{
    (void)argument;
    return own;
}

static void all_at_once(void)
{
    thrd_t threads[THREADS + 1];
    int seeds[THREADS] = {1, 2, 3}, result;

    for (int t = 0; t < THREADS; t++)
        if (thrd_create(&threads[t], work, &seeds[t]) != thrd_success)
            printf("thread %d isn't made\n", t);
    printf("one more: %d\n", thrd_create(&threads[THREADS], nothing, 0) == thrd_nomem);
    for (int i = 0; i < ROUNDS; i++)
        count_up();
    for (int t = 0; t < THREADS; t++) {
        thrd_join(threads[t], &result);
        printf("thread %d returns %d\n", t, result);
    }
    printf("counted %d, %d wrong bytes, own %d\n", shared, bad, own);
    thrd_create(&threads[0], nothing, 0);
    thrd_join(threads[0], &result);
    printf("a new thread begins with %d\n", result);
}

static void mutexes(void)
{
    printf("taken: %d\n", mtx_trylock(&lock) == thrd_success);
    printf("busy: %d\n", mtx_trylock(&lock) == thrd_busy);
    mtx_unlock(&lock);
    printf("not owned: %d\n", mtx_unlock(&lock) == thrd_error);
    mtx_lock(&again);
    printf("recursive: %d\n", mtx_lock(&again) == thrd_success && mtx_unlock(&again) == thrd_success);
    printf("released: %d\n", mtx_unlock(&again) == thrd_success && mtx_unlock(&again) == thrd_error);
}

static int crosswise(void *argument)
{
    mtx_lock(&other);
    *(volatile int *)argument = 1;
    mtx_lock(&lock);
    return 0;
}

static void deadlock(void)
{
    thrd_t thread;
    volatile int has_other = 0;

    mtx_lock(&lock);
    thrd_create(&thread, crosswise, (void *)&has_other);
    while (!has_other)
        thrd_yield();
    mtx_lock(&other);
}

int main(int argc, char **argv)
{
    MPI_Init(&argc, &argv);
    mtx_init(&lock, mtx_plain);
    mtx_init(&other, mtx_plain);
    mtx_init(&again, mtx_recursive);
    if (DEADLOCK)
        deadlock();
    all_at_once();
    mutexes();
    MPI_Finalize();
    return 0;
}
