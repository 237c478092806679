/* MPI_PROC_NULL as source and destination of all kinds of sends and receives, and the status that they leave.

   c/rvmc-cc -n 1 -o null_process.image c/programs/null_process.c && rvmc run < null_process.image */
#include <mpi.h>
#include <stdio.h>

static void show(const char *what, const MPI_Status *status)
{
    int count, cancelled;

    MPI_Get_count(status, MPI_INT, &count);
    MPI_Test_cancelled(status, &cancelled);
    printf("%s: source %s, tag %s, count %d, cancelled %d\n", what,
           status->MPI_SOURCE == MPI_PROC_NULL    ? "null"
           : status->MPI_SOURCE == MPI_ANY_SOURCE ? "any"
                                                  : "another",
           status->MPI_TAG == MPI_ANY_TAG ? "any" : "another", count, cancelled);
}

int main(int argc, char *argv[])
{
    int in = 5, out = 6, flag;
    char room[100 + MPI_BSEND_OVERHEAD];
    void *back;
    MPI_Request request;
    MPI_Message message;
    MPI_Status status;
    MPI_Comm world = MPI_COMM_WORLD;

    MPI_Init(&argc, &argv);
    MPI_Buffer_attach(room, sizeof(room));
    MPI_Send(&out, 1, MPI_INT, MPI_PROC_NULL, 0, world);
    MPI_Ssend(&out, 1, MPI_INT, MPI_PROC_NULL, 0, world);
    MPI_Bsend(&out, 1, MPI_INT, MPI_PROC_NULL, 0, world);
    MPI_Rsend(&out, 1, MPI_INT, MPI_PROC_NULL, 0, world);
    MPI_Recv(&in, 1, MPI_INT, MPI_PROC_NULL, 0, world, &status);
    show("Recv", &status);
    MPI_Irecv(&in, 1, MPI_INT, MPI_PROC_NULL, 0, world, &request);
    MPI_Wait(&request, MPI_STATUS_IGNORE);
    printf("Irecv: %s\n", request == MPI_REQUEST_NULL ? "done" : "WRONG");
    MPI_Issend(&out, 1, MPI_INT, MPI_PROC_NULL, 0, world, &request);
    MPI_Test(&request, &flag, &status);
    printf("Issend: done %d\n", flag);
    MPI_Sendrecv(&out, 1, MPI_INT, MPI_PROC_NULL, 0, &in, 1, MPI_INT, MPI_PROC_NULL, 0, world, &status);
    show("Sendrecv", &status);
    MPI_Probe(MPI_PROC_NULL, 3, world, &status);
    show("Probe", &status);
    MPI_Iprobe(MPI_PROC_NULL, 3, world, &flag, &status);
    printf("Iprobe: found %d\n", flag);
    MPI_Mprobe(MPI_PROC_NULL, 3, world, &message, &status);
    printf("Mprobe: %s\n", message == MPI_MESSAGE_NO_PROC ? "no process" : "WRONG");
    MPI_Mrecv(&in, 1, MPI_INT, &message, &status);
    show("Mrecv", &status);
    printf("the message then: %s; received: %d\n", message == MPI_MESSAGE_NULL ? "null" : "WRONG", in);
    request = MPI_REQUEST_NULL;
    MPI_Wait(&request, &status);
    show("a null request", &status);
    MPI_Buffer_detach(&back, &flag);
    MPI_Finalize();
    return 0;
}
