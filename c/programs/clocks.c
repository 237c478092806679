/* The clocks of MPI and of C: none goes back, and all go on.

   c/rvmc-cc -n 2 -o clocks.image c/programs/clocks.c && rvmc run < clocks.image */
#include <mpi.h>
#include <stdio.h>
#include <sys/time.h>
#include <time.h>
#include <unistd.h>

static void show(const char *name, double before, double after, double least)
{
    printf("%s: %s\n", name, after - before >= least ? "went on" : "WRONG");
}

int main(int argc, char *argv[])
{
    double start, middle, end;
    struct timespec pause = {0, 20000000}, before, after;
    struct timeval first, second;
    time_t now, then;

    MPI_Init(&argc, &argv);
    start = MPI_Wtime();
    middle = MPI_Wtime();
    printf("the tick: %s\n", MPI_Wtick() > 0.0 && MPI_Wtick() <= 1.0 ? "a part of a second" : "WRONG");
    nanosleep(&pause, NULL);
    end = MPI_Wtime();
    show("MPI_Wtime", start, middle, 0.0);
    show("after 20 milliseconds", middle, end, 0.0199);
    show("and no hour", end, middle + 3600.0, 0.0);

    gettimeofday(&first, NULL);
    usleep(10000);
    gettimeofday(&second, NULL);
    show("gettimeofday", first.tv_sec + first.tv_usec / 1e6, second.tv_sec + second.tv_usec / 1e6, 0.0099);
    clock_gettime(CLOCK_MONOTONIC, &before);
    nanosleep(&pause, NULL);
    clock_gettime(CLOCK_MONOTONIC, &after);
    show("clock_gettime", before.tv_sec + before.tv_nsec / 1e9, after.tv_sec + after.tv_nsec / 1e9, 0.0199);
    now = time(NULL);
    sleep(1);
    then = time(NULL);
    show("time", (double)now, (double)then, 1.0);
    printf("clock: %s\n", clock() != (clock_t)-1 && clock() >= 0 ? "told" : "WRONG");
    MPI_Barrier(MPI_COMM_WORLD);
    MPI_Finalize();
    return 0;
}
