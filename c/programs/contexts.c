/* Messages of one communicator are never received in another, whatever their sources and tags: by receives and probes of
   all kinds, persistent requests, messages that are claimed, and long ones.

   c/rvmc-cc -n 3 -o contexts.image c/programs/contexts.c && rvmc run < contexts.image */
#include <mpi.h>
#include <stdio.h>
#include <stdlib.h>

#define LONG 3000

static MPI_Comm dup, other;

static void show(const char *name, int value, const MPI_Status *status)
{
    int count;

    MPI_Get_count(status, MPI_INT, &count);
    printf("%s: %d from %d by tag %d, %d of them\n", name, value, status->MPI_SOURCE, status->MPI_TAG, count);
}

/* Rank 0 of the world sends the same tags in three communicators; in `other` the ranks stand the other way round. */
static void send_all(int last)
{
    int *values = calloc(LONG, sizeof *values);

    for (int tag = 0; tag < 8; tag++) {
        int value = 100 + tag;

        MPI_Send(&value, 1, MPI_INT, last, tag, MPI_COMM_WORLD);
        value += 100;
        MPI_Send(&value, 1, MPI_INT, last, tag, dup);
        value += 100;
        MPI_Send(&value, 1, MPI_INT, 0, tag, other);
    }
    for (int tag = 8; tag < 11; tag++) {
        values[0] = 500 + tag;
        MPI_Ssend(values, LONG, MPI_INT, 0, tag, other);
    }
    for (int tag = 8; tag < 11; tag++) {
        values[0] = 400 + tag;
        MPI_Send(values, LONG, MPI_INT, last, tag, dup);
    }
    free(values);
}

static void receive_small(MPI_Comm comm)
{
    int value, flag = 0, values[2];
    MPI_Status status, statuses[2];
    MPI_Request request, requests[2];
    MPI_Message message;

    MPI_Recv(&value, 1, MPI_INT, MPI_ANY_SOURCE, MPI_ANY_TAG, comm, &status);
    show("Recv", value, &status);
    MPI_Probe(MPI_ANY_SOURCE, MPI_ANY_TAG, comm, &status);
    printf("Probe: from %d by tag %d\n", status.MPI_SOURCE, status.MPI_TAG);
    MPI_Recv(&value, 1, MPI_INT, status.MPI_SOURCE, status.MPI_TAG, comm, &status);
    show("Recv", value, &status);
    MPI_Irecv(&value, 1, MPI_INT, MPI_ANY_SOURCE, MPI_ANY_TAG, comm, &request);
    MPI_Wait(&request, &status);
    show("Irecv", value, &status);
    while (!flag)
        MPI_Iprobe(MPI_ANY_SOURCE, MPI_ANY_TAG, comm, &flag, &status);
    printf("Iprobe: from %d by tag %d\n", status.MPI_SOURCE, status.MPI_TAG);
    MPI_Mprobe(MPI_ANY_SOURCE, MPI_ANY_TAG, comm, &message, &status);
    MPI_Mrecv(&value, 1, MPI_INT, &message, &status);
    show("Mrecv", value, &status);
    MPI_Mprobe(MPI_ANY_SOURCE, MPI_ANY_TAG, comm, &message, MPI_STATUS_IGNORE);
    MPI_Imrecv(&value, 1, MPI_INT, &message, &request);
    MPI_Wait(&request, &status);
    show("Imrecv", value, &status);
    MPI_Irecv(values, 1, MPI_INT, MPI_ANY_SOURCE, MPI_ANY_TAG, comm, requests);
    MPI_Irecv(values + 1, 1, MPI_INT, MPI_ANY_SOURCE, MPI_ANY_TAG, comm, requests + 1);
    MPI_Waitall(2, requests, statuses);
    show("Waitall", values[0], statuses);
    show("Waitall", values[1], statuses + 1);
    MPI_Recv_init(&value, 1, MPI_INT, MPI_ANY_SOURCE, MPI_ANY_TAG, comm, &request);
    MPI_Start(&request);
    MPI_Wait(&request, &status);
    show("Start", value, &status);
    MPI_Request_free(&request);
}

static void receive_long(MPI_Comm comm)
{
    int *values = calloc(LONG, sizeof *values);
    MPI_Status status;
    MPI_Request request;
    MPI_Message message;

    MPI_Recv(values, LONG, MPI_INT, MPI_ANY_SOURCE, MPI_ANY_TAG, comm, &status);
    show("long Recv", values[0], &status);
    MPI_Irecv(values, LONG, MPI_INT, MPI_ANY_SOURCE, MPI_ANY_TAG, comm, &request);
    MPI_Wait(&request, &status);
    show("long Irecv", values[0], &status);
    MPI_Mprobe(MPI_ANY_SOURCE, MPI_ANY_TAG, comm, &message, &status);
    MPI_Mrecv(values, LONG, MPI_INT, &message, &status);
    show("long Mrecv", values[0], &status);
    free(values);
}

int main(int argc, char *argv[])
{
    int rank, size, answer;

    MPI_Init(&argc, &argv);
    MPI_Comm_rank(MPI_COMM_WORLD, &rank);
    MPI_Comm_size(MPI_COMM_WORLD, &size);
    MPI_Comm_dup(MPI_COMM_WORLD, &dup);
    MPI_Comm_split(MPI_COMM_WORLD, 0, -rank, &other);
    MPI_Comm_compare(MPI_COMM_WORLD, dup, &answer);
    printf("dup is congruent: %d\n", answer == MPI_CONGRUENT);
    MPI_Comm_compare(dup, other, &answer);
    printf("other is similar: %d\n", answer == MPI_SIMILAR);
    if (rank == 0)
        send_all(size - 1);
    if (rank == size - 1) {
        receive_small(other);
        receive_small(dup);
        receive_small(MPI_COMM_WORLD);
        receive_long(other);
        receive_long(dup);
    }
    MPI_Comm_free(&other);
    MPI_Comm_free(&dup);
    MPI_Finalize();
    return 0;
}
