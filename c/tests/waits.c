/* waits.c: the calls over several requests, and what they do with requests that are null, inactive or complete. By two
   ranks; rank 0 prints the same with a real MPI (mpicc, mpiexec -n 2). Rank 1 sends only what rank 0 asks for, so what
   isn't there yet is certain. */
#include <mpi.h>
#include <stdio.h>

enum { ASK = 9, END = 99 };

static void show(const char *what, int value)
{
    printf("%s: %d\n", what, value);
}

static void show_status(const char *what, const MPI_Status *status, MPI_Datatype type)
{
    int count;

    MPI_Get_count(status, type, &count);
    printf("%s: source %d tag %d count %d\n", what, status->MPI_SOURCE == MPI_ANY_SOURCE ? -1 : status->MPI_SOURCE,
           status->MPI_TAG == MPI_ANY_TAG ? -1 : status->MPI_TAG, count == MPI_UNDEFINED ? -1 : count);
}

/* asks rank 1 for a message with this tag, and waits until it is there */
static void ask(int tag)
{
    MPI_Send(&tag, 1, MPI_INT, 1, ASK, MPI_COMM_WORLD);
    MPI_Recv(&tag, 1, MPI_INT, 1, ASK, MPI_COMM_WORLD, MPI_STATUS_IGNORE);
}

static void answer(void)
{
    for (int tag = 0; tag != END;) {
        MPI_Recv(&tag, 1, MPI_INT, 0, ASK, MPI_COMM_WORLD, MPI_STATUS_IGNORE);
        if (tag != END)
            MPI_Send(&tag, 1, MPI_INT, 0, tag, MPI_COMM_WORLD);
        MPI_Send(&tag, 1, MPI_INT, 0, ASK, MPI_COMM_WORLD);
    }
}

static void one_of_several(void)
{
    MPI_Request requests[3] = {MPI_REQUEST_NULL, MPI_REQUEST_NULL, MPI_REQUEST_NULL};
    MPI_Status status;
    int in[3] = {0, 0, 0}, index, flag;

    MPI_Irecv(&in[1], 1, MPI_INT, 1, 1, MPI_COMM_WORLD, &requests[1]);
    MPI_Irecv(&in[2], 1, MPI_INT, 1, 2, MPI_COMM_WORLD, &requests[2]);
    MPI_Testany(3, requests, &index, &flag, &status);
    show("Testany of what isn't there", flag);
    ask(2);
    MPI_Waitany(3, requests, &index, &status);
    show("Waitany", index);
    show("received", in[2]);
    show_status("its status", &status, MPI_INT);
    show("is null", requests[2] == MPI_REQUEST_NULL);
    ask(1);
    do
        MPI_Testany(3, requests, &index, &flag, &status);
    while (!flag);
    show("Testany", index);
    show("received", in[1]);
    MPI_Waitany(3, requests, &index, &status);
    show("Waitany of none", index == MPI_UNDEFINED);
    show_status("its status", &status, MPI_INT);
    MPI_Testany(3, requests, &index, &flag, MPI_STATUS_IGNORE);
    show("Testany of none", flag && index == MPI_UNDEFINED);
}

static void some_of_several(void)
{
    MPI_Request requests[3] = {MPI_REQUEST_NULL, MPI_REQUEST_NULL, MPI_REQUEST_NULL};
    MPI_Status statuses[3];
    int in[3] = {0, 0, 0}, indices[3], count, done;

    MPI_Irecv(&in[0], 1, MPI_INT, 1, 3, MPI_COMM_WORLD, &requests[0]);
    MPI_Irecv(&in[2], 1, MPI_INT, 1, 4, MPI_COMM_WORLD, &requests[2]);
    MPI_Testsome(3, requests, &count, indices, statuses);
    show("Testsome of what isn't there", count);
    ask(4);
    MPI_Waitsome(3, requests, &count, indices, statuses);
    show("Waitsome", count);
    show("which", indices[0]);
    show_status("its status", &statuses[0], MPI_INT);
    ask(3);
    for (done = 0; done == 0;)
        MPI_Testsome(3, requests, &done, indices, MPI_STATUSES_IGNORE);
    show("Testsome", done);
    show("which", indices[0]);
    show("received", in[0] * 10 + in[2]);
    MPI_Waitsome(3, requests, &count, indices, statuses);
    show("Waitsome of none", count == MPI_UNDEFINED);
    MPI_Testsome(3, requests, &count, indices, statuses);
    show("Testsome of none", count == MPI_UNDEFINED);
}

static void all_of_several(void)
{
    MPI_Request requests[3] = {MPI_REQUEST_NULL, MPI_REQUEST_NULL, MPI_REQUEST_NULL};
    MPI_Status statuses[3];
    int in[3] = {0, 0, 0}, flag;

    MPI_Irecv(&in[0], 1, MPI_INT, 1, 5, MPI_COMM_WORLD, &requests[0]);
    MPI_Irecv(&in[1], 1, MPI_INT, 1, 6, MPI_COMM_WORLD, &requests[1]);
    ask(5);
    MPI_Testall(3, requests, &flag, statuses);
    show("Testall of one that isn't there", flag);
    show("none is null", requests[0] != MPI_REQUEST_NULL && requests[1] != MPI_REQUEST_NULL);
    ask(6);
    for (flag = 0; !flag;)
        MPI_Testall(3, requests, &flag, statuses);
    show("received", in[0] * 10 + in[1]);
    show_status("first status", &statuses[0], MPI_INT);
    show_status("status of the null request", &statuses[2], MPI_INT);
    show("all are null", requests[0] == MPI_REQUEST_NULL && requests[1] == MPI_REQUEST_NULL);
    MPI_Waitall(3, requests, statuses);
    show_status("Waitall of none", &statuses[1], MPI_INT);
    MPI_Wait(&requests[0], &statuses[0]);
    show_status("Wait of the null request", &statuses[0], MPI_INT);
}

/* Persistent requests that aren't started count as none, and keep their handles. */
static void persistent(void)
{
    MPI_Request requests[2];
    MPI_Status status;
    int in[2] = {0, 0}, index, flag;

    MPI_Recv_init(&in[0], 1, MPI_INT, 1, 7, MPI_COMM_WORLD, &requests[0]);
    MPI_Recv_init(&in[1], 1, MPI_INT, 1, 8, MPI_COMM_WORLD, &requests[1]);
    MPI_Waitany(2, requests, &index, &status);
    show("Waitany of inactive ones", index == MPI_UNDEFINED);
    for (int round = 0; round < 2; round++) {
        MPI_Startall(2, requests);
        ask(8);
        MPI_Waitany(2, requests, &index, &status);
        show("Waitany", index);
        ask(7);
        MPI_Waitall(2, requests, MPI_STATUSES_IGNORE);
        show("received", in[0] * 10 + in[1]);
        show("kept", requests[0] != MPI_REQUEST_NULL && requests[1] != MPI_REQUEST_NULL);
    }
    MPI_Test(&requests[0], &flag, &status);
    show("Test of an inactive one", flag);
    MPI_Request_free(&requests[0]);
    MPI_Request_free(&requests[1]);
    show("freed is null", requests[0] == MPI_REQUEST_NULL);
}

static void probes(void)
{
    MPI_Status status;
    MPI_Message message;
    short in[2];
    int flag;

    MPI_Iprobe(1, 10, MPI_COMM_WORLD, &flag, &status);
    show("Iprobe of what isn't there", flag);
    MPI_Improbe(1, 10, MPI_COMM_WORLD, &flag, &message, &status);
    show("Improbe of what isn't there", flag);
    ask(10);
    MPI_Probe(MPI_ANY_SOURCE, 10, MPI_COMM_WORLD, &status);
    show_status("Probe as shorts", &status, MPI_SHORT);
    show_status("Probe as doubles", &status, MPI_DOUBLE);
    MPI_Mprobe(1, MPI_ANY_TAG, MPI_COMM_WORLD, &message, &status);
    MPI_Iprobe(1, 10, MPI_COMM_WORLD, &flag, MPI_STATUS_IGNORE);
    show("Iprobe behind Mprobe", flag);
    MPI_Mrecv(in, 2, MPI_SHORT, &message, &status);
    show("received", in[0]);
    show("message is null", message == MPI_MESSAGE_NULL);
    MPI_Recv(in, 2, MPI_SHORT, MPI_PROC_NULL, 0, MPI_COMM_WORLD, &status);
    show("from no process", status.MPI_SOURCE == MPI_PROC_NULL);
}

int main(int argc, char **argv)
{
    int rank, begun, over, level;

    MPI_Initialized(&begun);
    MPI_Init_thread(&argc, &argv, MPI_THREAD_SINGLE, &level);
    MPI_Comm_rank(MPI_COMM_WORLD, &rank);
    if (rank == 1) {
        answer();
    } else {
        show("begun", begun);
        MPI_Initialized(&begun);
        show("begun", begun);
        one_of_several();
        some_of_several();
        all_of_several();
        persistent();
        probes();
        ask(END);
    }
    MPI_Finalize();
    MPI_Finalized(&over);
    if (rank == 0)
        show("over", over);
    return 0;
}
