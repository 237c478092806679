/* Eight ranks of two threads each: in each rank one thread adds up the squares of the odd numbers to a last one, and the
   other those of the even ones. Rank 0 takes the sums of all ranks. It is wrong on purpose: docs/DEBUGGING.md finds why. */

#include <mpi.h>
#include <stdio.h>
#include <threads.h>

enum { RANKS = 8 };

static mtx_t lock;
static int sum, sums[RANKS];

static int square(int number) {
    return number * number;
}

static void add(int number) {
    mtx_lock(&lock);
    sum += number;
    mtx_unlock(&lock);
}

static int add_odd(void *last) {
    for (int i = 1; i <= *(int *)last; i += 2)
        add(square(i));
    return 0;
}

static void add_even(int last) {
    for (int i = 2; i <= last; i += 2)
        add(square(i));
}

static void collect(int rank) {
    if (rank != 0) {
        MPI_Send(&sum, 1, MPI_INT, 0, 0, MPI_COMM_WORLD);
        return;
    }
    sums[0] = sum;
    for (int i = 1; i < RANKS; i++)
        MPI_Recv(&sums[i], 1, MPI_INT, i, 0, MPI_COMM_WORLD, MPI_STATUS_IGNORE);
}

static void report(void) {
    for (int i = 0; i < RANKS; i++)
        printf("rank %d: %d\n", i, sums[i]);
}

int main(int argc, char **argv) {
    int rank, last;
    thrd_t other;

    MPI_Init(&argc, &argv);
    MPI_Comm_rank(MPI_COMM_WORLD, &rank);
    mtx_init(&lock, mtx_plain);
    last = rank == 5 ? 9 : 6;
    thrd_create(&other, add_odd, &last);
    add_even(last);
    collect(rank);
    thrd_join(other, NULL);
    if (rank == 0)
        report();
    MPI_Finalize();
    return 0;
}
