/* All modes of sending, blocking and not: standard, synchronous, buffered and ready.

   c/rvmc-cc -n 2 -o modes.image c/programs/modes.c && rvmc run < modes.image */
#include <mpi.h>
#include <stdio.h>
#include <stdlib.h>

#define MODES 8

static const char *const names[MODES] = {"Send", "Ssend", "Bsend", "Rsend", "Isend", "Issend", "Ibsend", "Irsend"};

static void send(int mode, int *value)
{
    MPI_Request request = MPI_REQUEST_NULL;
    MPI_Comm comm = MPI_COMM_WORLD;

    switch (mode) {
    case 0: MPI_Send(value, 1, MPI_INT, 1, mode, comm); break;
    case 1: MPI_Ssend(value, 1, MPI_INT, 1, mode, comm); break;
    case 2: MPI_Bsend(value, 1, MPI_INT, 1, mode, comm); break;
    case 3: MPI_Rsend(value, 1, MPI_INT, 1, mode, comm); break;
    case 4: MPI_Isend(value, 1, MPI_INT, 1, mode, comm, &request); break;
    case 5: MPI_Issend(value, 1, MPI_INT, 1, mode, comm, &request); break;
    case 6: MPI_Ibsend(value, 1, MPI_INT, 1, mode, comm, &request); break;
    case 7: MPI_Irsend(value, 1, MPI_INT, 1, mode, comm, &request); break;
    }
    if (mode >= 4) {
        MPI_Wait(&request, MPI_STATUS_IGNORE);
        printf("%s: request %s\n", names[mode], request == MPI_REQUEST_NULL ? "done" : "WRONG");
    }
}

int main(int argc, char *argv[])
{
    int rank, size, room = 4 * (sizeof(int) + MPI_BSEND_OVERHEAD), given;
    void *buffer, *back;
    MPI_Request request;
    MPI_Status status;

    MPI_Init(&argc, &argv);
    MPI_Comm_rank(MPI_COMM_WORLD, &rank);
    MPI_Comm_size(MPI_COMM_WORLD, &size);
    buffer = malloc(room);
    MPI_Buffer_attach(buffer, room);
    for (int mode = 0; mode < MODES; mode++) {
        int value = 100 + mode;

        if (rank == 0) {
            /* rank 1 has posted its receive: so a ready send is right */
            MPI_Recv(NULL, 0, MPI_INT, 1, 99, MPI_COMM_WORLD, MPI_STATUS_IGNORE);
            send(mode, &value);
        } else {
            value = 0;
            MPI_Irecv(&value, 1, MPI_INT, 0, mode, MPI_COMM_WORLD, &request);
            MPI_Send(NULL, 0, MPI_INT, 0, 99, MPI_COMM_WORLD);
            MPI_Wait(&request, &status);
            printf("%s: %d from %d by tag %d\n", names[mode], value, status.MPI_SOURCE, status.MPI_TAG);
        }
    }
    MPI_Buffer_detach(&back, &given);
    printf("the buffer: %s, its size: %s\n", back == buffer ? "the same" : "WRONG", given == room ? "the same" : "WRONG");
    free(buffer);
    MPI_Finalize();
    return 0;
}
