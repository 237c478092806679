#include <mpi.h>
#include <threads.h>

/* What the library sends for threads and mutexes never waits; the program's own sends may. */
static mtx_t mutex;
static int sum;

static int work(void *number)
{
    for (int i = 0; i < 3; i++) {
        mtx_lock(&mutex);
        sum += *(int *)number;
        mtx_unlock(&mutex);
    }
    return 0;
}

int main(int argc, char **argv)
{
    thrd_t thread;
    int provided, rank, one = 1, ten = 10, got = 0;

    MPI_Init_thread(&argc, &argv, MPI_THREAD_MULTIPLE, &provided);
    MPI_Comm_rank(MPI_COMM_WORLD, &rank);
    mtx_init(&mutex, mtx_plain);
    thrd_create(&thread, work, &one);
    work(&ten);
    thrd_join(thread, 0);
    if (rank == 0)
        MPI_Send(&sum, 1, MPI_INT, 1, 7, MPI_COMM_WORLD);
    else
        MPI_Recv(&got, 1, MPI_INT, 0, 7, MPI_COMM_WORLD, MPI_STATUS_IGNORE);
    MPI_Finalize();
    return sum != 33 || got != (rank ? 33 : 0);
}
