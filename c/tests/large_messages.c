/* large_messages.c: messages of LENGTH bytes by the SEND-th of five ways to send, and by each way to receive. Each rank tells
   how many were right. A rank that waits uses up its calls, so one run isn't enough for all. */
#include <mpi.h>
#include <stdio.h>
#include <stdlib.h>
#include <string.h>

enum { MOST = 12000, GUARD = 16 };

/* What is sent with a seed stands in the pattern from 8 times the seed on. */
enum { SEEDS = 64 };
static unsigned char pattern[MOST + 8 * SEEDS], in[MOST + GUARD], other[MOST + GUARD];
static const unsigned char *out;
static int rank, size, good, bad;

static void choose(int seed)
{
    out = pattern + 8 * seed;
}

static void right(const char *what, const unsigned char *bytes, int seed, int length, const MPI_Status *status, int from, int tag)
{
    int ok = memcmp(bytes, pattern + 8 * seed, length) == 0, count = -1;

    for (int i = length; i < length + GUARD; i++)
        ok &= bytes[i] == 0xee;
    if (status) {
        MPI_Get_count(status, MPI_BYTE, &count);
        ok &= count == length && status->MPI_SOURCE == from && status->MPI_TAG == tag;
    }
    if (!ok)
        printf("rank %d: %s of %d bytes is wrong: count %d\n", rank, what, length, count);
    good += ok;
    bad += !ok;
}

static void clear(int length)
{
    memset(in, 0xee, length + GUARD);
    memset(other, 0xee, length + GUARD);
}

/* Rank 1 sends to rank 0 in one of five ways, and rank 0 receives in one of nine. */
static void ways(int length, int send, int receive)
{
    int tag = 10 * send + receive, flag = 0, count;
    MPI_Request r;
    MPI_Message m;
    MPI_Status st;

    if (rank == 1) {
        choose(tag);
        switch (send) {
        case 0: MPI_Send(out, length, MPI_BYTE, 0, tag, MPI_COMM_WORLD); return;
        case 1: MPI_Ssend(out, length, MPI_BYTE, 0, tag, MPI_COMM_WORLD); return;
        case 2: MPI_Isend(out, length, MPI_BYTE, 0, tag, MPI_COMM_WORLD, &r); break;
        case 3: MPI_Issend(out, length, MPI_BYTE, 0, tag, MPI_COMM_WORLD, &r); break;
        default: MPI_Send_init(out, length, MPI_BYTE, 0, tag, MPI_COMM_WORLD, &r); MPI_Start(&r); break;
        }
        MPI_Wait(&r, MPI_STATUS_IGNORE);
        if (send == 4)
            MPI_Request_free(&r);
        return;
    }
    clear(length);
    switch (receive) {
    case 0: MPI_Recv(in, MOST, MPI_BYTE, 1, tag, MPI_COMM_WORLD, &st); break;
    case 1: MPI_Recv(in, length, MPI_BYTE, MPI_ANY_SOURCE, MPI_ANY_TAG, MPI_COMM_WORLD, &st); break;
    case 2: MPI_Irecv(in, MOST, MPI_BYTE, 1, MPI_ANY_TAG, MPI_COMM_WORLD, &r); MPI_Wait(&r, &st); break;
    case 3:
        MPI_Irecv(in, MOST, MPI_BYTE, MPI_ANY_SOURCE, tag, MPI_COMM_WORLD, &r);
        while (!flag)
            MPI_Test(&r, &flag, &st);
        break;
    case 4:
        MPI_Recv_init(in, MOST, MPI_BYTE, MPI_ANY_SOURCE, tag, MPI_COMM_WORLD, &r);
        MPI_Start(&r);
        MPI_Waitall(1, &r, &st);
        MPI_Request_free(&r);
        break;
    case 5:
        MPI_Probe(MPI_ANY_SOURCE, MPI_ANY_TAG, MPI_COMM_WORLD, &st);
        MPI_Get_count(&st, MPI_BYTE, &count);
        MPI_Recv(in, count, MPI_BYTE, st.MPI_SOURCE, st.MPI_TAG, MPI_COMM_WORLD, &st);
        break;
    case 6:
        MPI_Mprobe(1, tag, MPI_COMM_WORLD, &m, &st);
        MPI_Get_count(&st, MPI_BYTE, &count);
        if (count != length)
            printf("Mprobe of %d bytes: %d\n", length, count);
        MPI_Mrecv(in, MOST, MPI_BYTE, &m, &st);
        break;
    case 7:
        while (!flag)
            MPI_Improbe(1, tag, MPI_COMM_WORLD, &flag, &m, &st);
        MPI_Imrecv(in, MOST, MPI_BYTE, &m, &r);
        MPI_Wait(&r, &st);
        break;
    default:
        while (!flag)
            MPI_Iprobe(1, tag, MPI_COMM_WORLD, &flag, &st);
        MPI_Irecv(in, MOST, MPI_BYTE, 1, tag, MPI_COMM_WORLD, &r);
        MPI_Wait(&r, &st);
    }
    right("a message", in, tag, length, &st, 1, tag);
}

/* Two at once of one sender, completed in the other order. */
static void crossed(int length)
{
    MPI_Request r[2];
    MPI_Status st;

    if (rank == 1) {
        choose(1);
        MPI_Send(out, length, MPI_BYTE, 0, 5, MPI_COMM_WORLD);
        choose(2);
        MPI_Send(out, length, MPI_BYTE, 0, 5, MPI_COMM_WORLD);
        return;
    }
    clear(length);
    MPI_Irecv(in, MOST, MPI_BYTE, 1, 5, MPI_COMM_WORLD, &r[0]);
    MPI_Irecv(other, MOST, MPI_BYTE, 1, 5, MPI_COMM_WORLD, &r[1]);
    MPI_Wait(&r[1], &st);
    right("the second", other, 2, length, &st, 1, 5);
    MPI_Wait(&r[0], &st);
    right("the first", in, 1, length, &st, 1, 5);
}

/* A message to oneself, and one too long where errors return. */
static void alone(int length)
{
    MPI_Status st;
    int code, count, room = length / 2;

    choose(SEEDS - 1);
    clear(length);
    MPI_Sendrecv(out, length, MPI_BYTE, rank, 3, in, length, MPI_BYTE, rank, 3, MPI_COMM_WORLD, &st);
    right("Sendrecv", in, SEEDS - 1, length, &st, rank, 3);
    MPI_Comm_set_errhandler(MPI_COMM_WORLD, MPI_ERRORS_RETURN);
    clear(length);
    MPI_Send(out, length, MPI_BYTE, rank, 4, MPI_COMM_WORLD);
    code = MPI_Recv(in, room, MPI_BYTE, rank, 4, MPI_COMM_WORLD, &st);
    MPI_Get_count(&st, MPI_BYTE, &count);
    if (code != (room < length ? MPI_ERR_TRUNCATE : MPI_SUCCESS) || in[room] != 0xee)
        printf("rank %d: %d bytes into %d: code %d, count %d\n", rank, length, room, code, count);
    MPI_Comm_set_errhandler(MPI_COMM_WORLD, MPI_ERRORS_ARE_FATAL);
}

int main(int argc, char **argv)
{
    MPI_Init(&argc, &argv);
    MPI_Comm_rank(MPI_COMM_WORLD, &rank);
    MPI_Comm_size(MPI_COMM_WORLD, &size);
    for (unsigned i = 0; i < sizeof pattern; i++)
        pattern[i] = (unsigned char)(i * 7 + (i >> 8));
    for (int receive = 0; receive < 9 && rank < 2 && size > 1; receive++)
        ways(LENGTH, SEND, receive);
    if (rank < 2 && size > 1)
        crossed(LENGTH);
    alone(LENGTH);
    printf("%d right, %d wrong\n", good, bad);
    MPI_Finalize();
    return 0;
}
