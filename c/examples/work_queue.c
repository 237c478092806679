/* Rank 0 gives out jobs, the others do them, and whoever is done first gets the next one. Rank 0 doesn't know
   who that will be: it receives from MPI_ANY_SOURCE, and the status tells where the answer came from. A worker
   doesn't know whether a job comes or the end: it receives with MPI_ANY_TAG. Which rank does which job differs
   from run to run; what is printed is the same in all.

   c/rvmc-cc -n 4 -o work_queue.image c/examples/work_queue.c && rvmc run < work_queue.image */
#include <mpi.h>
#include <stdio.h>

enum { JOBS = 16 };

/* the tags */
enum { WORK = 1, DONE = 2, STOP = 3 };

typedef struct {
    int job, divisors;
} answer_t;

static int count_divisors(int n)
{
    int count = 0;

    for (int d = 1; d <= n; d++)
        count += n % d == 0;
    return count;
}

/* gives a rank the next job, or tells it to stop; returns whether there was a job */
static int give(int rank, int *next)
{
    if (*next > JOBS) {
        MPI_Send(next, 0, MPI_INT, rank, STOP, MPI_COMM_WORLD);
        return 0;
    }
    MPI_Send(next, 1, MPI_INT, rank, WORK, MPI_COMM_WORLD);
    ++*next;
    return 1;
}

static void give_out(int size, int *divisors)
{
    int next = 1, busy = 0;

    for (int rank = 1; rank < size; rank++)
        busy += give(rank, &next);
    while (busy > 0) {
        answer_t answer;
        MPI_Status status;

        MPI_Recv(&answer, 2, MPI_INT, MPI_ANY_SOURCE, DONE, MPI_COMM_WORLD, &status);
        divisors[answer.job] = answer.divisors;
        if (!give(status.MPI_SOURCE, &next))
            busy--;
    }
}

/* works until it is told to stop; returns how many jobs that were */
static int work(void)
{
    for (int count = 0;; count++) {
        answer_t answer;
        MPI_Status status;

        MPI_Recv(&answer.job, 1, MPI_INT, 0, MPI_ANY_TAG, MPI_COMM_WORLD, &status);
        if (status.MPI_TAG == STOP)
            return count;
        answer.divisors = count_divisors(100 + answer.job);
        MPI_Send(&answer, 2, MPI_INT, 0, DONE, MPI_COMM_WORLD);
    }
}

int main(int argc, char **argv)
{
    int rank, size, divisors[JOBS + 1], done = 0, all = 0;

    MPI_Init(&argc, &argv);
    MPI_Comm_rank(MPI_COMM_WORLD, &rank);
    MPI_Comm_size(MPI_COMM_WORLD, &size);
    if (rank == 0)
        give_out(size, divisors);
    else
        done = work();
    MPI_Reduce(&done, &all, 1, MPI_INT, MPI_SUM, 0, MPI_COMM_WORLD);
    if (rank == 0) {
        for (int job = 1; job <= JOBS; job++)
            printf("%d has %d divisors\n", 100 + job, divisors[job]);
        printf("%d jobs were done\n", all);
    }
    MPI_Finalize();
    return 0;
}
