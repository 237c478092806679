#include <mpi.h>
#include <stdlib.h>

/* Each way in which MPI's other calls send, behind MPI_Send of messages of more than 4,096 bytes. */
#ifndef COUNT
#define COUNT 1500
#endif
enum { EXTENT = 5 };

static int out[COUNT + EXTENT], in[COUNT + EXTENT], rank, other;

/* Four of five ints: the second one is left out. */
static MPI_Datatype column;

static void by_sends(void)
{
    if (rank == 0) {
        MPI_Send(out, COUNT, MPI_INT, other, 1, MPI_COMM_WORLD);
        MPI_Send(out, COUNT / EXTENT, column, other, 1, MPI_COMM_WORLD);
    }
    if (rank == 1) {
        MPI_Recv(in, COUNT, MPI_INT, other, 1, MPI_COMM_WORLD, MPI_STATUS_IGNORE);
        MPI_Recv(in, COUNT / EXTENT, column, other, 1, MPI_COMM_WORLD, MPI_STATUS_IGNORE);
    }
}

static void in_both_directions(int count, MPI_Datatype type)
{
    MPI_Request request;

    MPI_Sendrecv(out, count, type, other, 2, in, count, type, other, 2, MPI_COMM_WORLD, MPI_STATUS_IGNORE);
    MPI_Sendrecv_replace(in, count, type, other, 2, other, 2, MPI_COMM_WORLD, MPI_STATUS_IGNORE);
#ifndef MPICH /* 4.0.2 reads through null pointers in these */
    MPI_Isendrecv(out, count, type, other, 2, in, count, type, other, 2, MPI_COMM_WORLD, &request);
    MPI_Wait(&request, MPI_STATUS_IGNORE);
    MPI_Isendrecv_replace(in, count, type, other, 2, other, 2, MPI_COMM_WORLD, &request);
    MPI_Wait(&request, MPI_STATUS_IGNORE);
#endif
}

static void in_other_modes(int count, MPI_Datatype type)
{
    MPI_Request receive;

    MPI_Irecv(in, count, type, other, 3, MPI_COMM_WORLD, &receive);
    MPI_Barrier(MPI_COMM_WORLD);
    MPI_Rsend(out, count, type, other, 3, MPI_COMM_WORLD);
    MPI_Wait(&receive, MPI_STATUS_IGNORE);
    MPI_Bsend(out, count, type, other, 4, MPI_COMM_WORLD);
    MPI_Recv(in, count, type, other, 4, MPI_COMM_WORLD, MPI_STATUS_IGNORE);
    MPI_Irecv(in, count, type, other, 5, MPI_COMM_WORLD, &receive);
    MPI_Ssend(out, rank == 0 ? count : 0, type, rank == 0 ? 1 : MPI_PROC_NULL, 5, MPI_COMM_WORLD);
    if (rank == 1) {
        MPI_Wait(&receive, MPI_STATUS_IGNORE);
        MPI_Ssend(out, count, type, 0, 5, MPI_COMM_WORLD);
    }
    MPI_Wait(&receive, MPI_STATUS_IGNORE);
}

static void by_requests(int count, MPI_Datatype type)
{
    MPI_Request send;

    MPI_Isend(out, count, type, other, 6, MPI_COMM_WORLD, &send);
    MPI_Recv(in, count, type, other, 6, MPI_COMM_WORLD, MPI_STATUS_IGNORE);
    MPI_Wait(&send, MPI_STATUS_IGNORE);
    MPI_Send_init(out, count, type, other, 7, MPI_COMM_WORLD, &send);
    MPI_Start(&send);
    MPI_Recv(in, count, type, other, 7, MPI_COMM_WORLD, MPI_STATUS_IGNORE);
    MPI_Wait(&send, MPI_STATUS_IGNORE);
    MPI_Request_free(&send);
}

/* A large message that was claimed is received by way of a message of the rank to itself. */
static void by_a_claim(void)
{
    MPI_Message message;
    MPI_Request send, receive;

    MPI_Isend(out, COUNT, MPI_INT, other, 8, MPI_COMM_WORLD, &send);
    MPI_Mprobe(other, 8, MPI_COMM_WORLD, &message, MPI_STATUS_IGNORE);
    MPI_Imrecv(in, COUNT, MPI_INT, &message, &receive);
    MPI_Wait(&receive, MPI_STATUS_IGNORE);
    MPI_Wait(&send, MPI_STATUS_IGNORE);
}

static void by_all(void)
{
    int sum, ring[] = {1, 1};
    MPI_Comm copy, graph;
    MPI_Request request;

    MPI_Comm_idup(MPI_COMM_WORLD, &copy, &request);
    MPI_Wait(&request, MPI_STATUS_IGNORE);
    MPI_Bcast(in, COUNT, MPI_INT, 1, copy);
    MPI_Bcast(in, 1, column, 1, copy);
    MPI_Ibcast(in, 1, MPI_INT, 0, copy, &request);
    MPI_Wait(&request, MPI_STATUS_IGNORE);
    MPI_Iallreduce(&rank, &sum, 1, MPI_INT, MPI_SUM, copy, &request);
    MPI_Wait(&request, MPI_STATUS_IGNORE);
    MPI_Cart_create(copy, 1, &(int){2}, ring, 0, &graph);
    MPI_Neighbor_allgather(&rank, 1, MPI_INT, in, 1, MPI_INT, graph);
    MPI_Comm_free(&graph);
    MPI_Comm_free(&copy);
}

int main(int argc, char **argv)
{
    int room = 2 * (COUNT * sizeof *out + MPI_BSEND_OVERHEAD);
    void *buffer = malloc(room);

    MPI_Init(&argc, &argv);
    MPI_Comm_rank(MPI_COMM_WORLD, &rank);
    other = 1 - rank;
    MPI_Type_indexed(2, (int[]){1, 3}, (int[]){0, 2}, MPI_INT, &column);
    MPI_Type_commit(&column);
    MPI_Buffer_attach(buffer, room);
    for (int i = 0; i < COUNT + EXTENT; i++)
        out[i] = rank;
    by_sends();
    for (int of_columns = 0; of_columns < 2; of_columns++) {
        int count = of_columns ? 1 : 2;
        MPI_Datatype type = of_columns ? column : MPI_INT;

        in_both_directions(count, type);
        in_other_modes(count, type);
        by_requests(count, type);
    }
    by_a_claim();
    by_all();
    MPI_Buffer_detach(&buffer, &room);
    MPI_Type_free(&column);
    MPI_Finalize();
    return in[0] != 1 - rank;
}
