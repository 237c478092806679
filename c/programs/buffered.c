/* Buffered sends: a ring in which all send before anybody receives, messages that wait in the buffer, and a buffer that is
   given back when they are gone.

   c/rvmc-cc -n 4 -o buffered.image c/programs/buffered.c && rvmc run < buffered.image */
#include <mpi.h>
#include <stdio.h>
#include <stdlib.h>

#define MESSAGES 5
#define COUNT 20

int main(int argc, char *argv[])
{
    int rank, size, room, given = 0, out[COUNT], in[COUNT], sum = 0;
    void *buffer, *back = NULL;
    MPI_Request request;
    MPI_Status status;

    MPI_Init(&argc, &argv);
    MPI_Comm_rank(MPI_COMM_WORLD, &rank);
    MPI_Comm_size(MPI_COMM_WORLD, &size);
    room = MESSAGES * (COUNT * (int)sizeof(int) + MPI_BSEND_OVERHEAD);
    buffer = malloc(room);
    MPI_Buffer_attach(buffer, room);
    for (int round = 0; round < 2; round++) {
        for (int m = 0; m < MESSAGES; m++) {
            for (int i = 0; i < COUNT; i++)
                out[i] = 1000 * rank + 100 * m + i;
            if (m % 2 == 0) {
                MPI_Bsend(out, COUNT - m, MPI_INT, (rank + 1) % size, m, MPI_COMM_WORLD);
            } else {
                MPI_Ibsend(out, COUNT - m, MPI_INT, (rank + 1) % size, m, MPI_COMM_WORLD, &request);
                MPI_Wait(&request, MPI_STATUS_IGNORE);
            }
            for (int i = 0; i < COUNT; i++)
                out[i] = -1;                    /* the buffer has its copy */
        }
        MPI_Barrier(MPI_COMM_WORLD);
        for (int m = MESSAGES - 1; m >= 0; m--) {
            int count;

            MPI_Recv(in, COUNT, MPI_INT, (rank + size - 1) % size, m, MPI_COMM_WORLD, &status);
            MPI_Get_count(&status, MPI_INT, &count);
            printf("message %d: %d numbers, the last is %d\n", m, count, in[count - 1]);
            sum += in[0];
        }
        MPI_Buffer_detach(&back, &given);
        printf("given back: %s, %s\n", back == buffer ? "the buffer" : "WRONG", given == room ? "all of it" : "WRONG");
        MPI_Buffer_attach(back, given);
    }
    MPI_Buffer_detach(&back, &given);
    free(back);
    printf("sum %d\n", sum);
    MPI_Finalize();
    return 0;
}
