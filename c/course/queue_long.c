/* A solution of lesson 8: the longest jobs go out first, so the last ones are short.

   c/rvmc-cc -n 3 -o queue_long.image c/course/queue_long.c */
#include <mpi.h>
#include <stdio.h>

enum { JOBS = 6, JOB = 1, ANSWER = 2, STOP = 3 };

static void give_out(int size, int *answers)
{
    int next = JOBS, busy = 0, answer[2];
    MPI_Status status;

    for (int rank = 1; rank < size; rank++, next--, busy++)
        MPI_Send(&next, 1, MPI_INT, rank, JOB, MPI_COMM_WORLD);
    while (busy > 0) {
        MPI_Recv(answer, 2, MPI_INT, MPI_ANY_SOURCE, ANSWER, MPI_COMM_WORLD, &status);
        answers[answer[0]] = answer[1];
        busy--;
        if (next > 0) {
            MPI_Send(&next, 1, MPI_INT, status.MPI_SOURCE, JOB, MPI_COMM_WORLD);
            next--;
            busy++;
        }
    }
    for (int rank = 1; rank < size; rank++)
        MPI_Send(&next, 0, MPI_INT, rank, STOP, MPI_COMM_WORLD);
}

/* the sum of the squares of 1 to 10 * job: a job with twice the number takes twice as long */
static int work(int job)
{
    int sum = 0;

    for (int i = 1; i <= 10 * job; i++)
        sum += i * i;
    return sum;
}

static void serve(void)
{
    int job, answer[2];
    MPI_Status status;

    for (;;) {
        MPI_Recv(&job, 1, MPI_INT, 0, MPI_ANY_TAG, MPI_COMM_WORLD, &status);
        if (status.MPI_TAG == STOP)
            return;
        answer[0] = job;
        answer[1] = work(job);
        MPI_Send(answer, 2, MPI_INT, 0, ANSWER, MPI_COMM_WORLD);
    }
}

int main(int argc, char **argv)
{
    int rank, size, answers[JOBS + 1] = {0};

    MPI_Init(&argc, &argv);
    MPI_Comm_rank(MPI_COMM_WORLD, &rank);
    MPI_Comm_size(MPI_COMM_WORLD, &size);
    if (rank == 0) {
        give_out(size, answers);
        for (int job = 1; job <= JOBS; job++)
            printf("job %d: %d\n", job, answers[job]);
    } else {
        serve();
    }
    MPI_Finalize();
    return 0;
}
