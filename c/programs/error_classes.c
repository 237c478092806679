/* The class of each error that a wrong call returns, where errors return.

   c/rvmc-cc -n 2 -o error_classes.image c/programs/error_classes.c && rvmc run < error_classes.image */
#include <mpi.h>
#include <stdio.h>
#include <string.h>

#define TRY(class, call) try_it(#call, #class, class, call)

static void try_it(const char *text, const char *name, int class, int code)
{
    char told[MPI_MAX_ERROR_STRING] = "";
    int found = -1, length = 0;

    MPI_Error_class(code, &found);
    MPI_Error_string(code, told, &length);
    printf("%s: %s%s\n", text, found == class ? name : "ANOTHER CLASS",
           length > 0 && length == (int)strlen(told) && length < MPI_MAX_ERROR_STRING ? "" : ", WRONG text");
}

int main(int argc, char *argv[])
{
    int rank, in[4] = {0, 0, 0, 0}, out[4] = {1, 2, 3, 4}, length;
    MPI_Comm world = MPI_COMM_WORLD;
    MPI_Request request = MPI_REQUEST_NULL;
    MPI_Status status;
    MPI_Info info;

    MPI_Init(&argc, &argv);
    MPI_Comm_rank(world, &rank);
    MPI_Comm_set_errhandler(world, MPI_ERRORS_RETURN);
    TRY(MPI_SUCCESS, MPI_Send(out, 1, MPI_INT, MPI_PROC_NULL, 0, world));
    TRY(MPI_ERR_RANK, MPI_Send(out, 1, MPI_INT, 2, 0, world));
    TRY(MPI_ERR_RANK, MPI_Send(out, 1, MPI_INT, MPI_ANY_SOURCE, 0, world));
    TRY(MPI_ERR_RANK, MPI_Recv(in, 1, MPI_INT, -5, 0, world, &status));
    TRY(MPI_ERR_TAG, MPI_Send(out, 1, MPI_INT, 0, -7, world));
    TRY(MPI_ERR_TAG, MPI_Irecv(in, 1, MPI_INT, 0, -7, world, &request));
    TRY(MPI_ERR_COUNT, MPI_Send(out, -1, MPI_INT, 0, 0, world));
    TRY(MPI_ERR_COUNT, MPI_Isend(out, -2, MPI_INT, 0, 0, world, &request));
    TRY(MPI_ERR_TYPE, MPI_Send(out, 1, MPI_DATATYPE_NULL, 0, 0, world));
    TRY(MPI_ERR_TYPE, MPI_Recv(in, 1, MPI_DATATYPE_NULL, 0, 0, world, &status));
    TRY(MPI_ERR_COMM, MPI_Send(out, 1, MPI_INT, 0, 0, MPI_COMM_NULL));
    TRY(MPI_ERR_COMM, MPI_Comm_rank(MPI_COMM_NULL, &length));
    TRY(MPI_ERR_BUFFER, MPI_Send(NULL, 1, MPI_INT, 0, 0, world));
    TRY(MPI_ERR_BUFFER, MPI_Recv(NULL, 1, MPI_INT, 0, 0, world, &status));
    TRY(MPI_ERR_ROOT, MPI_Bcast(out, 1, MPI_INT, 2, world));
    TRY(MPI_ERR_ROOT, MPI_Reduce(out, in, 1, MPI_INT, MPI_SUM, -1, world));
    TRY(MPI_ERR_TYPE, MPI_Bcast(out, 1, MPI_DATATYPE_NULL, 0, world));
    TRY(MPI_ERR_OP, MPI_Allreduce(out, in, 1, MPI_INT, MPI_OP_NULL, world));
    TRY(MPI_ERR_OP, MPI_Allreduce(out, in, 1, MPI_DOUBLE, MPI_BAND, world));
    TRY(MPI_ERR_OP, MPI_Allreduce(out, in, 1, MPI_INT, MPI_MAXLOC, world));
    TRY(MPI_ERR_BUFFER, MPI_Allreduce(out, NULL, 1, MPI_INT, MPI_SUM, world));
    TRY(MPI_ERR_BUFFER, MPI_Allreduce(out, out, 1, MPI_INT, MPI_SUM, world));
    TRY(MPI_ERR_BUFFER, MPI_Alltoall(out, 1, MPI_INT, out, 1, MPI_INT, world));
    TRY(MPI_ERR_REQUEST, MPI_Start(&request));
    TRY(MPI_SUCCESS, MPI_Info_create(&info));
    TRY(MPI_ERR_INFO_KEY, MPI_Info_set(info, "", "empty"));
    TRY(MPI_ERR_INFO_NOKEY, MPI_Info_delete(info, "missing"));
    TRY(MPI_SUCCESS, MPI_Info_free(&info));
    TRY(MPI_SUCCESS, MPI_Barrier(world));
    if (rank == 0) {
        MPI_Send(out, 4, MPI_INT, 1, 3, world);
    } else {
        TRY(MPI_ERR_TRUNCATE, MPI_Recv(in, 2, MPI_INT, 0, 3, world, &status));
    }
    MPI_Finalize();
    return 0;
}
