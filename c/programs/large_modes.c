/* Messages of more bytes than the machine carries at once, in each mode and in the collectives with unequal shares.

   c/rvmc-cc -n 2 -o large_modes.image c/programs/large_modes.c && rvmc run < large_modes.image */
#include <mpi.h>
#include <stdio.h>
#include <stdlib.h>

#define COUNT 1100
#define BYTES (COUNT * (int)sizeof(int))

static int out[COUNT], in[COUNT];

static void fill(int seed)
{
    for (int i = 0; i < COUNT; i++) {
        out[i] = seed * 10000 + i;
        in[i] = -1;
    }
}

static int wrong(int seed, int count)
{
    int found = 0;

    for (int i = 0; i < count; i++)
        found += in[i] != seed * 10000 + i;
    return found;
}

static void send_and_receive(int rank)
{
    MPI_Comm world = MPI_COMM_WORLD;
    MPI_Request request;
    MPI_Status status;

    for (int mode = 0; mode < 4; mode++) {
        fill(mode);
        if (rank == 0) {
            MPI_Recv(NULL, 0, MPI_INT, 1, 9, world, MPI_STATUS_IGNORE);
            switch (mode) {
            case 0: MPI_Bsend(out, COUNT, MPI_INT, 1, mode, world); break;
            case 1: MPI_Rsend(out, COUNT, MPI_INT, 1, mode, world); break;
            case 2: MPI_Ssend(out, COUNT, MPI_INT, 1, mode, world); break;
            case 3: MPI_Irsend(out, COUNT, MPI_INT, 1, mode, world, &request); MPI_Wait(&request, &status); break;
            }
        } else {
            int count;

            MPI_Irecv(in, COUNT, MPI_INT, 0, mode, world, &request);
            MPI_Send(NULL, 0, MPI_INT, 0, 9, world);
            MPI_Wait(&request, &status);
            MPI_Get_count(&status, MPI_INT, &count);
            printf("mode %d: %d numbers, %d wrong\n", mode, count, wrong(mode, COUNT));
        }
    }
}

int main(int argc, char *argv[])
{
    int rank, size, counts[2] = {1060, 40}, places[2] = {0, 1060}, backs[2], unused;
    void *room = malloc(BYTES + MPI_BSEND_OVERHEAD), *back;

    MPI_Init(&argc, &argv);
    MPI_Comm_rank(MPI_COMM_WORLD, &rank);
    MPI_Comm_size(MPI_COMM_WORLD, &size);
    MPI_Buffer_attach(room, BYTES + MPI_BSEND_OVERHEAD);
    send_and_receive(rank);
    MPI_Buffer_detach(&back, &unused);
    free(back);

    /* each rank has counts[r] numbers for rank r, so rank r gets as many from each */
    fill(rank);
    backs[0] = 0;
    backs[1] = counts[rank];
    for (int r = 0; r < 2; r++)
        places[r] = r == 0 ? 0 : counts[0];
    if (rank == 1) {
        int fits[2] = {40, 40};

        MPI_Alltoallv(out, counts, places, MPI_INT, in, fits, backs, MPI_INT, MPI_COMM_WORLD);
        printf("Alltoallv: %d %d %d %d\n", in[0], in[39], in[40], in[79]);
    } else {
        int fits[2] = {1060, 1060};
        int *both = malloc(2120 * sizeof(int));

        MPI_Alltoallv(out, counts, places, MPI_INT, both, fits, backs, MPI_INT, MPI_COMM_WORLD);
        printf("Alltoallv: %d %d %d %d\n", both[0], both[1059], both[1060], both[2119]);
        free(both);
    }
    fill(1);
    MPI_Reduce_scatter(out, in, counts, MPI_INT, MPI_SUM, MPI_COMM_WORLD);
    printf("Reduce_scatter: %d %d\n", in[0], in[counts[rank] - 1]);
    MPI_Finalize();
    return 0;
}
