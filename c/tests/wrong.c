/* wrong.c: calls with one wrong argument each, or one too many, where errors are fatal: each rank makes one of them, and is
   told its value and its name. Rank r of an image with -DFROM=N makes the one whose number is N + r; what each prints stands
   in wrong.expected. */
#include <mpi.h>
#include <stdio.h>

#ifndef FROM
#define FROM 0
#endif

static int one, many[64], others[64];
static const int counts[8] = {1, 1, 1, 1, 1, 1, 1, -3};
static MPI_Request request;
static MPI_Status status;
static MPI_Comm world = MPI_COMM_WORLD;
static MPI_Info info;
static MPI_Op op;
static MPI_Errhandler handler;
static MPI_Datatype none = MPI_DATATYPE_NULL;

static void add(void *in, void *inout, int *count, MPI_Datatype *type)
{
    (void)type;
    for (int i = 0; i < *count; i++)
        ((int *)inout)[i] += ((int *)in)[i];
}

static void handle(MPI_Comm *comm, int *error, ...)
{
    (void)comm;
    (void)error;
}

static void wrong(int number, int me)
{
    switch (number) {
    case 0: MPI_Send(&one, 1, MPI_INT, 9, 0, world); break;
    case 1: MPI_Recv(&one, 1, MPI_INT, 12, 0, world, &status); break;
    case 2: MPI_Send(&one, 1, MPI_INT, 0, 40000, world); break;
    case 3: MPI_Send(&one, -1, MPI_INT, 0, 0, world); break;
    case 4: MPI_Recv(&one, 1, none, 0, 0, world, &status); break;
    case 5: MPI_Sendrecv(many, 1, MPI_INT, me, 0, NULL, 1, MPI_INT, me, 0, world, &status); break;
    case 6: MPI_Sendrecv(many, 1, MPI_INT, me, -4, others, 1, MPI_INT, me, 0, world, &status); break;
    case 7: MPI_Send(&one, 1, MPI_INT, 0, 0, MPI_COMM_NULL); break;
    case 8: MPI_Bcast(&one, 1, MPI_INT, 8, world); break;
    case 9: MPI_Reduce(&one, NULL, 1, MPI_INT, MPI_SUM, me, world); break;
    case 10: MPI_Allreduce(many, many, 2, MPI_INT, MPI_SUM, world); break;
    case 11: MPI_Allreduce(many, others, 2, MPI_FLOAT, MPI_BAND, world); break;
    case 12: MPI_Gather(many, 1, MPI_INT, NULL, 1, MPI_INT, me, world); break;
    case 13: MPI_Alltoallv(many, counts, counts, MPI_INT, others, counts, counts, MPI_INT, world); break;
    case 14: MPI_Allgather(many, 1, none, others, 1, MPI_INT, world); break;
    case 15: MPI_Scan(many, others, 1, MPI_INT, MPI_OP_NULL, world); break;
    case 16: request = 77; MPI_Wait(&request, &status); break;
    case 17: MPI_Precv_init(many, 4, 3, MPI_INT, 0, 0, world, MPI_INFO_NULL, &request); break;
    case 18: MPI_Precv_init(many, 40, 2, MPI_INT, 0, 0, world, MPI_INFO_NULL, &request); break;
    case 19: MPI_Bsend(many, 1, MPI_INT, me, 0, world); break;
    case 20: MPI_Rsend(many, 1, MPI_INT, (me + 1) % 8, 0, world); break;
    case 21: MPI_Irecv(&one, 1, MPI_INT, me, 0, world, &request); MPI_Cancel(&request); break;
    case 22: MPI_Finalize(); MPI_Comm_rank(world, &one); break;
    case 23: MPI_Init(NULL, NULL); break;
    case 24: MPI_Send(many, 4, MPI_INT, me, 0, world); MPI_Recv(&one, 1, MPI_INT, me, 0, world, &status); break;
    case 25: MPI_Recv((void *)16, 4, MPI_INT, me, 0, world, &status); break;
    case 26: MPI_Send((void *)0xfffffff0, 8, MPI_INT, me, 0, world); break;
    case 27: MPI_Scatter(MPI_IN_PLACE, 1, MPI_INT, many, 1, MPI_INT, me, world); break;
    case 28: MPI_Irecv(&one, 1, MPI_INT, me, 0, world, &request); MPI_Start(&request); break;
    case 29: MPI_Abort(world, 6); break;
    case 30: MPI_Type_size(none, &one); break;
    case 31: MPI_Comm_free_keyval(&one); break;
    case 32: for (;;) MPI_Info_create(&info);
    case 33: for (;;) MPI_Op_create(add, 1, &op);
    case 34: for (;;) MPI_Comm_create_errhandler(handle, &handler);
    case 35: for (;;) MPI_Add_error_class(&one);
    case 36: info = MPI_INFO_NULL; MPI_Info_free(&info); break;
    case 37: MPI_Info_create(&info); MPI_Info_delete(info, "host"); break;
    case 38: MPI_Status_set_elements_x(&status, MPI_INT, 536870912); break;
    default: MPI_Status_set_elements(&status, MPI_INT, -7); break;
    }
}

int main(int argc, char **argv)
{
    int me;

    MPI_Init(&argc, &argv);
    MPI_Comm_rank(world, &me);
    wrong(FROM + me, me);
    printf("nothing was told\n");
    MPI_Finalize();
    return 0;
}
