/* clock.c: the clock's count, by arithmetic: a look adds a millisecond, each further one in a row twice as much as the one
   before, a sleep its length, and a call nothing. The first look of the loop is 1 ms; behind k looks the count is 2^k - 1,
   and an hour of 3,600,000 ms has passed behind the 22nd. One rank. */
#include <mpi.h>
#include <stdio.h>
#include <stdlib.h>
#include <time.h>

static long milliseconds(double from)
{
    return (long)((MPI_Wtime() - from) * 1000 + 0.5);
}

int main(int argc, char **argv)
{
    struct timespec length = {0, 20000000};
    double begin;
    time_t now;
    int looks = 1, size;

    MPI_Init(&argc, &argv);
    begin = MPI_Wtime();
    for (; MPI_Wtime() - begin < 3600; looks++)
        ;
    printf("an hour: %d looks\n", looks + 1);
    begin = MPI_Wtime();
    MPI_Comm_size(MPI_COMM_WORLD, &size);
    printf("behind a call: %ld\n", milliseconds(begin));
    begin = MPI_Wtime();
    nanosleep(&length, 0);
    printf("a sleep and the second look: %ld\n", milliseconds(begin));
    now = time(0);
    printf("%s", ctime(&now));
    for (int i = 0; i < 2; i++)
        if (malloc(2000000))
            printf("there is room\n");
    MPI_Finalize();
    return 0;
}
