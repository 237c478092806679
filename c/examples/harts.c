/* One rank of four harts, which share its memory: C11 threads run on harts, so there are at most four, the first
   of them main itself. Each thread sums a quarter of the numbers, adds that to the total under a mutex, and
   tells how many it had. Without the mutex two could read the same total, and one sum would be lost.

   c/rvmc-cc -n 1 --harts 4 -o harts.image c/examples/harts.c && rvmc run < harts.image */
#include <mpi.h>
#include <stdio.h>
#include <threads.h>

enum { THREADS = 4, COUNT = 100, PIECES = 5 };

static mtx_t lock;
static long total;

/* sums the squares of every fourth number, and adds them to the total in a few pieces */
static int add_part(void *argument)
{
    int part = *(int *)argument, count = 0;

    for (int piece = 0; piece < PIECES; piece++) {
        long sum = 0;

        for (int i = piece * COUNT / PIECES + part; i < (piece + 1) * COUNT / PIECES; i += THREADS, count++)
            sum += (long)i * i;
        mtx_lock(&lock);
        total += sum;
        mtx_unlock(&lock);
    }
    return count;
}

int main(int argc, char **argv)
{
    thrd_t threads[THREADS];
    int parts[THREADS], counts[THREADS];

    MPI_Init(&argc, &argv);
    mtx_init(&lock, mtx_plain);
    for (int t = 0; t < THREADS; t++)
        parts[t] = t;
    for (int t = 1; t < THREADS; t++)
        thrd_create(&threads[t], add_part, &parts[t]);
    counts[0] = add_part(&parts[0]);
    for (int t = 1; t < THREADS; t++)
        thrd_join(threads[t], &counts[t]);
    for (int t = 0; t < THREADS; t++)
        printf("thread %d summed %d squares\n", t, counts[t]);
    printf("the sum of all is %ld\n", total);
    MPI_Finalize();
    return 0;
}
