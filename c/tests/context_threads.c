/* context_threads.c: the harts of a rank make and free communicators at the same time, each of a communicator of its own, and in
   another order in each rank. What is made has a context of its own: no message comes to another thread. */
#include <mpi.h>
#include <stdio.h>
#include <threads.h>

enum { THREADS = 3, ROUNDS = 4 };

static MPI_Comm own[THREADS];
static int rank, wrong;

static int work(void *argument)
{
    int me = *(int *)argument, size, place, got;
    MPI_Comm made;
    MPI_Status status;

    for (int round = 0; round < ROUNDS; round++) {
        int value = 100 * me + 10 * round + rank, sum = 0;

        if (round % 2)
            MPI_Comm_dup(own[me], &made);
        else
            MPI_Comm_split(own[me], 0, -rank, &made);
        MPI_Comm_size(made, &size);
        MPI_Comm_rank(made, &place);
        MPI_Allreduce(&value, &sum, 1, MPI_INT, MPI_SUM, made);
        wrong += sum != size * (100 * me + 10 * round) + size * (size - 1) / 2;
        MPI_Sendrecv(&value, 1, MPI_INT, (place + 1) % size, 0, &got, 1, MPI_INT, MPI_ANY_SOURCE, MPI_ANY_TAG, made, &status);
        wrong += got / 10 != 10 * me + round || status.MPI_SOURCE != (place + size - 1) % size;
        MPI_Comm_free(&made);
    }
    return 0;
}

int main(int argc, char **argv)
{
    int numbers[THREADS], provided;
    thrd_t threads[THREADS];

    MPI_Init_thread(&argc, &argv, MPI_THREAD_MULTIPLE, &provided);
    MPI_Comm_rank(MPI_COMM_WORLD, &rank);
    for (int i = 0; i < THREADS; i++) {
        numbers[i] = (i + rank) % THREADS;
        MPI_Comm_dup(MPI_COMM_WORLD, own + i);
    }
    for (int i = 1; i < THREADS; i++)
        thrd_create(threads + i, work, numbers + i);
    work(numbers);
    for (int i = 1; i < THREADS; i++)
        thrd_join(threads[i], NULL);
    printf("%d wrong\n", wrong);
    MPI_Finalize();
    return 0;
}
