/* Ping-pong: two ranks send a message back and forth, of more bytes each time, and rank 0 reads the clock. A cluster would
   print latency and bandwidth here. This one prints only what is the same in each run.

   c/rvmc-cc -n 2 -o ping_pong.image c/programs/ping_pong.c && rvmc run < ping_pong.image */
#include <mpi.h>
#include <stdio.h>
#include <stdlib.h>

#define ROUNDS 5
#define LARGEST 512

int main(int argc, char *argv[])
{
    int rank, size;
    char *buffer;
    double start, elapsed, tick;
    MPI_Status status;

    MPI_Init(&argc, &argv);
    MPI_Comm_rank(MPI_COMM_WORLD, &rank);
    MPI_Comm_size(MPI_COMM_WORLD, &size);
    if (size != 2) {
        fprintf(stderr, "ping_pong needs 2 ranks\n");
        MPI_Abort(MPI_COMM_WORLD, 1);
    }
    tick = MPI_Wtick();
    if (rank == 0)
        printf("the clock's tick is %s\n", tick > 0.0 && tick <= 1.0 ? "a part of a second" : "WRONG");
    buffer = malloc(LARGEST);
    for (int length = 1; length <= LARGEST; length *= 8) {
        int received = 0, count;

        for (int i = 0; i < length; i++)
            buffer[i] = (char)(rank == 0 ? i : 0);
        MPI_Barrier(MPI_COMM_WORLD);
        start = MPI_Wtime();
        for (int round = 0; round < ROUNDS; round++) {
            if (rank == 0) {
                MPI_Send(buffer, length, MPI_BYTE, 1, round, MPI_COMM_WORLD);
                MPI_Recv(buffer, length, MPI_BYTE, 1, round, MPI_COMM_WORLD, &status);
            } else {
                MPI_Recv(buffer, length, MPI_BYTE, 0, round, MPI_COMM_WORLD, &status);
                MPI_Send(buffer, length, MPI_BYTE, 0, round, MPI_COMM_WORLD);
            }
            MPI_Get_count(&status, MPI_BYTE, &count);
            received += count;
        }
        elapsed = MPI_Wtime() - start;
        if (rank == 0) {
            double latency = elapsed / (2.0 * ROUNDS), bandwidth = length / latency;

            printf("%4d bytes: %5d received, latency %s 0, bandwidth %s 0\n", length, received,
                   latency > 0.0 ? ">" : "<=", bandwidth > 0.0 ? ">" : "<=");
        }
        for (int i = 0; i < length; i++)
            if (buffer[i] != (char)i)
                printf("rank %d: byte %d is wrong\n", rank, i);
    }
    free(buffer);
    MPI_Finalize();
    return 0;
}
