/* Requests that are described once and started again and again, in all modes of sending.

   c/rvmc-cc -n 2 -o persistent_modes.image c/programs/persistent_modes.c && rvmc run < persistent_modes.image */
#include <mpi.h>
#include <stdio.h>
#include <stdlib.h>

#define MODES 4
#define ROUNDS 3

static const char *const names[MODES] = {"Send_init", "Ssend_init", "Bsend_init", "Rsend_init"};

int main(int argc, char *argv[])
{
    int rank, data[MODES], room = MODES * (int)(sizeof(int) + MPI_BSEND_OVERHEAD), ready = 0, unused, flag;
    void *buffer = malloc(room), *back;
    MPI_Comm world = MPI_COMM_WORLD;
    MPI_Request requests[MODES];
    MPI_Status statuses[MODES], status;

    MPI_Init(&argc, &argv);
    MPI_Comm_rank(world, &rank);
    MPI_Buffer_attach(buffer, room);
    if (rank == 0) {
        MPI_Send_init(&data[0], 1, MPI_INT, 1, 0, world, &requests[0]);
        MPI_Ssend_init(&data[1], 1, MPI_INT, 1, 1, world, &requests[1]);
        MPI_Bsend_init(&data[2], 1, MPI_INT, 1, 2, world, &requests[2]);
        MPI_Rsend_init(&data[3], 1, MPI_INT, 1, 3, world, &requests[3]);
    } else {
        for (int mode = 0; mode < MODES; mode++)
            MPI_Recv_init(&data[mode], 1, MPI_INT, 0, mode, world, &requests[mode]);
    }
    /* not started yet, they are inactive: waiting for them returns at once */
    MPI_Waitall(MODES, requests, statuses);
    MPI_Test(&requests[1], &flag, &status);
    printf("inactive: done %d, source %s\n", flag, status.MPI_SOURCE == MPI_ANY_SOURCE ? "any" : "WRONG");

    for (int round = 0; round < ROUNDS; round++) {
        if (rank == 0) {
            for (int mode = 0; mode < MODES; mode++)
                data[mode] = 10 * round + mode;
            MPI_Recv(&ready, 1, MPI_INT, 1, 9, world, MPI_STATUS_IGNORE);
            MPI_Startall(MODES, requests);
            MPI_Waitall(MODES, requests, MPI_STATUSES_IGNORE);
        } else {
            MPI_Startall(MODES, requests);
            MPI_Send(&ready, 1, MPI_INT, 0, 9, world);
            MPI_Waitall(MODES, requests, statuses);
            for (int mode = 0; mode < MODES; mode++)
                printf("%s: %d by tag %d\n", names[mode], data[mode], statuses[mode].MPI_TAG);
        }
        for (int mode = 0; mode < MODES; mode++)
            if (requests[mode] == MPI_REQUEST_NULL)
                printf("%s: WRONG, the request is gone\n", names[mode]);
    }
    for (int mode = 0; mode < MODES; mode++)
        MPI_Request_free(&requests[mode]);
    MPI_Buffer_detach(&back, &unused);
    free(back);
    MPI_Finalize();
    return 0;
}
