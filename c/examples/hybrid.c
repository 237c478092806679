/* Ranks and threads at once: four ranks of three threads each. Thread t of a rank passes numbers to thread t of
   the next rank; its tag is t, so the threads' messages are kept apart. The sums meet under a mutex in a rank,
   and by MPI_Allreduce among the ranks. All threads call MPI, which is what MPI_THREAD_MULTIPLE asks for.

   c/rvmc-cc -n 4 --harts 3 -o hybrid.image c/examples/hybrid.c && rvmc run < hybrid.image */
#include <mpi.h>
#include <stdio.h>
#include <threads.h>

enum { THREADS = 3, ROUNDS = 4 };

static mtx_t lock;
static int rank, size, sum;

/* passes a number to the next rank's thread and takes one from that of the rank before, a few times */
static int pass_on(void *argument)
{
    int thread = *(int *)argument, number = 100 * rank + thread;

    for (int round = 0; round < ROUNDS; round++) {
        int came;

        MPI_Send(&number, 1, MPI_INT, (rank + 1) % size, thread, MPI_COMM_WORLD);
        MPI_Recv(&came, 1, MPI_INT, (rank + size - 1) % size, thread, MPI_COMM_WORLD, MPI_STATUS_IGNORE);
        mtx_lock(&lock);
        sum += came;
        mtx_unlock(&lock);
        number = came;
    }
    return number;
}

static void run_threads(int *last)
{
    thrd_t threads[THREADS];
    int numbers[THREADS];

    mtx_init(&lock, mtx_plain);
    for (int t = 0; t < THREADS; t++)
        numbers[t] = t;
    for (int t = 1; t < THREADS; t++)
        thrd_create(&threads[t], pass_on, &numbers[t]);
    last[0] = pass_on(&numbers[0]);
    for (int t = 1; t < THREADS; t++)
        thrd_join(threads[t], &last[t]);
}

int main(int argc, char **argv)
{
    int given, last[THREADS], all = 0;

    MPI_Init_thread(&argc, &argv, MPI_THREAD_MULTIPLE, &given);
    MPI_Comm_rank(MPI_COMM_WORLD, &rank);
    MPI_Comm_size(MPI_COMM_WORLD, &size);
    if (given < MPI_THREAD_MULTIPLE) {
        printf("this MPI doesn't let all threads call\n");
        MPI_Finalize();
        return 1;
    }
    run_threads(last);
    for (int t = 0; t < THREADS; t++)
        printf("rank %d thread %d has %d in the end\n", rank, t, last[t]);
    MPI_Allreduce(&sum, &all, 1, MPI_INT, MPI_SUM, MPI_COMM_WORLD);
    printf("rank %d knows that all that came is %d\n", rank, all);
    MPI_Finalize();
    return 0;
}
