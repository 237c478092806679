/* A farm: rank 0 hands out numbers one at a time, whoever is done gets the next, and a message with the tag STOP sends
   the workers home. The workers count the steps of the Collatz sequence.

   c/rvmc-cc -n 4 -o farm.image c/programs/farm.c && rvmc run < farm.image */
#include <mpi.h>
#include <stdio.h>

#define JOBS 20

enum { WORK, RESULT, STOP };

static int collatz(int n)
{
    int steps = 0;

    for (; n != 1; steps++)
        n = n % 2 == 0 ? n / 2 : 3 * n + 1;
    return steps;
}

static void master(int size)
{
    int steps[JOBS + 1] = {0}, result[2], next = 1, busy = 0, total = 0;
    double start = MPI_Wtime();
    MPI_Status status;

    for (int worker = 1; worker < size; worker++) {
        MPI_Send(&next, 1, MPI_INT, worker, WORK, MPI_COMM_WORLD);
        next++;
        busy++;
    }
    while (busy > 0) {
        MPI_Recv(result, 2, MPI_INT, MPI_ANY_SOURCE, RESULT, MPI_COMM_WORLD, &status);
        steps[result[0]] = result[1];
        if (next <= JOBS) {
            MPI_Send(&next, 1, MPI_INT, status.MPI_SOURCE, WORK, MPI_COMM_WORLD);
            next++;
        } else {
            MPI_Send(NULL, 0, MPI_INT, status.MPI_SOURCE, STOP, MPI_COMM_WORLD);
            busy--;
        }
    }
    for (int job = 1; job <= JOBS; job++) {
        printf("%d: %d steps\n", job, steps[job]);
        total += steps[job];
    }
    printf("%d steps in all, in %s\n", total, MPI_Wtime() - start > 0 ? "some time" : "no time");
}

static void worker(void)
{
    MPI_Status status;
    int job, result[2];

    while (1) {
        MPI_Recv(&job, 1, MPI_INT, 0, MPI_ANY_TAG, MPI_COMM_WORLD, &status);
        if (status.MPI_TAG == STOP)
            break;
        result[0] = job;
        result[1] = collatz(job);
        MPI_Send(result, 2, MPI_INT, 0, RESULT, MPI_COMM_WORLD);
    }
}

int main(int argc, char *argv[])
{
    int rank, size;

    MPI_Init(&argc, &argv);
    MPI_Comm_rank(MPI_COMM_WORLD, &rank);
    MPI_Comm_size(MPI_COMM_WORLD, &size);
    if (size < 2)
        MPI_Abort(MPI_COMM_WORLD, 2);
    if (rank == 0)
        master(size);
    else
        worker();
    MPI_Finalize();
    return 0;
}
