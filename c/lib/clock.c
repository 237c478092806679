/* clock.c: what a program reads as time. A run has none: it is a list of steps. So there is one count of microseconds for
   each rank, which grows by each look at it and by each sleep, and by nothing else: a rank that polls for a message is in
   the same state behind each poll. A look adds a millisecond, so that a loop which polls for a second does so a thousand
   times. Looks in a row double their step until another call comes between, so that a loop that waits for an hour to pass
   ends within a hundred looks. */
#include <errno.h>
#include <sys/time.h>
#include <sys/times.h>
#include <time.h>
#include <unistd.h>
#include "../mpi.h"

enum { MILLION = 1000000, STEP = 1000, MOST_DOUBLINGS = 26 };
#define BIRTHDAY 1767225600L                      /* the count begins on 1 January 2026, where a date is asked for */

static long count;

static long look(void)
{
    unsigned long looks = rvmc_looks++;

    count += (long)STEP << (looks < MOST_DOUBLINGS ? looks : MOST_DOUBLINGS);
    return count;
}

static void sleep_for(long microseconds)
{
    count += microseconds;
}

double MPI_Wtime(void)
{
    return (double)look() / MILLION;
}

double MPI_Wtick(void)
{
    return 1.0 / MILLION;
}

time_t time(time_t *place)
{
    time_t now = BIRTHDAY + look() / MILLION;

    if (place)
        *place = now;
    return now;
}

clock_t clock(void)
{
    return (clock_t)(look() / (MILLION / CLOCKS_PER_SEC));
}

clock_t times(struct tms *parts)
{
    clock_t now = clock();

    if (parts)
        *parts = (struct tms){now, 0, 0, 0};
    return now;
}

int gettimeofday(struct timeval *now, void *zone)
{
    long at = look();

    (void)zone;
    now->tv_sec = BIRTHDAY + at / MILLION;
    now->tv_usec = at % MILLION;
    return 0;
}

int clock_gettime(clockid_t which, struct timespec *now)
{
    long at = look();

    now->tv_sec = (which == CLOCK_REALTIME ? BIRTHDAY : 0) + at / MILLION;
    now->tv_nsec = at % MILLION * 1000;
    return 0;
}

int clock_getres(clockid_t which, struct timespec *step)
{
    (void)which;
    if (step)
        *step = (struct timespec){0, 1000};
    return 0;
}

unsigned sleep(unsigned seconds)
{
    sleep_for((long)seconds * MILLION);
    return 0;
}

int usleep(useconds_t microseconds)
{
    sleep_for(microseconds);
    return 0;
}

/* Less than a microsecond is one. */
int nanosleep(const struct timespec *length, struct timespec *rest)
{
    if (length->tv_nsec < 0 || length->tv_nsec > 999999999 || length->tv_sec < 0) {
        errno = EINVAL;
        return -1;
    }
    sleep_for(length->tv_sec * MILLION + (length->tv_nsec + 999) / 1000);
    if (rest)
        *rest = (struct timespec){0, 0};
    return 0;
}

int clock_nanosleep(clockid_t which, int flags, const struct timespec *length, struct timespec *rest)
{
    struct timespec left = *length;

    if (flags) {
        left.tv_sec -= (which == CLOCK_REALTIME ? BIRTHDAY : 0) + count / MILLION;
        left.tv_nsec -= count % MILLION * 1000;
        if (left.tv_nsec < 0) {
            left.tv_sec--;
            left.tv_nsec += 1000000000;
        }
        if (left.tv_sec < 0)
            return 0;
    }
    return nanosleep(&left, rest) ? EINVAL : 0;
}
