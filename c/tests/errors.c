/* errors.c: calls with one wrong argument each, where errors return. Each gives its class, and all but one_truncated the same
   by MPICH 4.0.2 (mpicc, mpiexec -n 1). One rank. */
#include <mpi.h>
#include <stdio.h>

static int number, many[64], others[64];
static MPI_Request request;

static int bad_buffer(void) { return MPI_Send(0, 1, MPI_INT, 0, 0, MPI_COMM_WORLD); }
static int bad_count(void) { return MPI_Send(&number, -1, MPI_INT, 0, 0, MPI_COMM_WORLD); }
static int bad_tag(void) { return MPI_Send(&number, 1, MPI_INT, 0, -5, MPI_COMM_WORLD); }
static int bad_rank(void) { return MPI_Send(&number, 1, MPI_INT, 9, 0, MPI_COMM_WORLD); }
static int bad_source(void) { return MPI_Recv(&number, 1, MPI_INT, 9, 0, MPI_COMM_WORLD, MPI_STATUS_IGNORE); }
static int bad_large_rank(void) { static char large[5000]; return MPI_Send(large, 5000, MPI_BYTE, 9, 0, MPI_COMM_WORLD); }
static int bad_large_tag(void) { static char large[5000]; return MPI_Send(large, 5000, MPI_BYTE, 0, -5, MPI_COMM_WORLD); }
static int bad_root(void) { return MPI_Bcast(&number, 1, MPI_INT, 9, MPI_COMM_WORLD); }
static int bad_op(void) { float x = 1, y; return MPI_Allreduce(&x, &y, 1, MPI_FLOAT, MPI_BAND, MPI_COMM_WORLD); }
static int bad_comm(void) { return MPI_Send(&number, 1, MPI_INT, 0, 0, MPI_COMM_NULL); }
static int bad_type(void) { MPI_Datatype none = MPI_DATATYPE_NULL; return MPI_Send(&number, 1, none, 0, 0, MPI_COMM_WORLD); }
static int bad_type_of_all(void)
{
    MPI_Datatype none = MPI_DATATYPE_NULL;

    return MPI_Bcast(many, 1, none, 0, MPI_COMM_WORLD);
}
static int bad_count_of_all(void) { return MPI_Bcast(many, -2, MPI_INT, 0, MPI_COMM_WORLD); }
static int null_op(void) { return MPI_Reduce(many, others, 1, MPI_INT, MPI_OP_NULL, 0, MPI_COMM_WORLD); }
static int null_reduce(void) { return MPI_Allreduce(many, NULL, 1, MPI_INT, MPI_SUM, MPI_COMM_WORLD); }
static int null_scan(void) { return MPI_Scan(many, NULL, 1, MPI_INT, MPI_SUM, MPI_COMM_WORLD); }
static int null_gather(void) { return MPI_Gather(many, 1, MPI_INT, NULL, 1, MPI_INT, 0, MPI_COMM_WORLD); }
static int null_alltoall(void) { return MPI_Alltoall(many, 1, MPI_INT, NULL, 1, MPI_INT, MPI_COMM_WORLD); }
static int aliased_reduce(void) { return MPI_Allreduce(many, many, 1, MPI_INT, MPI_SUM, MPI_COMM_WORLD); }
static int aliased_gather(void) { return MPI_Gather(many, 1, MPI_INT, many, 1, MPI_INT, 0, MPI_COMM_WORLD); }
static int aliased_scatter(void) { return MPI_Scatter(many, 1, MPI_INT, many, 1, MPI_INT, 0, MPI_COMM_WORLD); }
static int aliased_all(void) { return MPI_Allgather(many, 1, MPI_INT, many, 1, MPI_INT, MPI_COMM_WORLD); }
static int aliased_alltoall(void) { return MPI_Alltoall(many, 1, MPI_INT, many, 1, MPI_INT, MPI_COMM_WORLD); }
static int no_buffer(void) { return MPI_Bsend(many, 64, MPI_INT, 0, 0, MPI_COMM_WORLD); }
static int bad_key(void) { int none = MPI_KEYVAL_INVALID; return MPI_Comm_set_attr(MPI_COMM_WORLD, none, 0); }

/* MPICH's standard send to oneself waits for its receive (3.4 allows that), so this one is posted. */
static int truncated(void)
{
    int code;

    MPI_Isend(many, 64, MPI_INT, 0, 1, MPI_COMM_WORLD, &request);
    code = MPI_Recv(&number, 1, MPI_INT, 0, 1, MPI_COMM_WORLD, MPI_STATUS_IGNORE);
    MPI_Wait(&request, MPI_STATUS_IGNORE);
    return code;
}

static int truncated_later(void)
{
    MPI_Irecv(&number, 1, MPI_INT, 0, 1, MPI_COMM_WORLD, &request);
    MPI_Send(many, 64, MPI_INT, 0, 1, MPI_COMM_WORLD);
    return MPI_Wait(&request, MPI_STATUS_IGNORE);
}

static int one_truncated(void)
{
    MPI_Request requests[2];
    MPI_Status statuses[2];
    int code;

    MPI_Irecv(&number, 1, MPI_INT, 0, 1, MPI_COMM_WORLD, &requests[0]);
    MPI_Irecv(others, 64, MPI_INT, 0, 2, MPI_COMM_WORLD, &requests[1]);
    MPI_Send(many, 64, MPI_INT, 0, 1, MPI_COMM_WORLD);
    MPI_Send(many, 64, MPI_INT, 0, 2, MPI_COMM_WORLD);
    code = MPI_Waitall(2, requests, statuses);
    MPI_Error_class(statuses[0].MPI_ERROR, &statuses[0].MPI_ERROR);
    return statuses[0].MPI_ERROR == MPI_ERR_TRUNCATE && !statuses[1].MPI_ERROR ? code : MPI_ERR_OTHER;
}

static int (*const wrong[])(void) = {
    bad_buffer, bad_count, bad_tag, bad_rank, bad_source, bad_large_rank, bad_large_tag, bad_root, bad_op, bad_comm,
    truncated, truncated_later, one_truncated,
    bad_type, bad_type_of_all, bad_count_of_all, null_op, null_reduce, null_scan, null_gather,
    null_alltoall, aliased_reduce, aliased_gather, aliased_scatter, aliased_all, aliased_alltoall, no_buffer, bad_key,
};
static const char *const names[] = {
    "bad_buffer", "bad_count", "bad_tag", "bad_rank", "bad_source", "bad_large_rank", "bad_large_tag", "bad_root", "bad_op",
    "bad_comm", "truncated", "truncated_later", "one_truncated",
    "bad_type", "bad_type_of_all", "bad_count_of_all", "null_op", "null_reduce", "null_scan",
    "null_gather", "null_alltoall", "aliased_reduce", "aliased_gather", "aliased_scatter",
    "aliased_all", "aliased_alltoall", "no_buffer", "bad_key",
};
enum { WRONG = sizeof wrong / sizeof *wrong };

static const char *name_of(int code)
{
    int error;

    MPI_Error_class(code, &error);
    switch (error) {
    case MPI_SUCCESS: return "MPI_SUCCESS";
    case MPI_ERR_BUFFER: return "MPI_ERR_BUFFER";
    case MPI_ERR_COUNT: return "MPI_ERR_COUNT";
    case MPI_ERR_TYPE: return "MPI_ERR_TYPE";
    case MPI_ERR_TAG: return "MPI_ERR_TAG";
    case MPI_ERR_COMM: return "MPI_ERR_COMM";
    case MPI_ERR_RANK: return "MPI_ERR_RANK";
    case MPI_ERR_ROOT: return "MPI_ERR_ROOT";
    case MPI_ERR_OP: return "MPI_ERR_OP";
    case MPI_ERR_KEYVAL: return "MPI_ERR_KEYVAL";
    case MPI_ERR_TRUNCATE: return "MPI_ERR_TRUNCATE";
    case MPI_ERR_IN_STATUS: return "MPI_ERR_IN_STATUS";
    default: return "another";
    }
}

int main(int argc, char **argv)
{
    MPI_Init(&argc, &argv);
    MPI_Comm_set_errhandler(MPI_COMM_WORLD, MPI_ERRORS_RETURN);
    for (int i = 0; i < WRONG; i++)
        printf("%s: %s\n", names[i], name_of(wrong[i]()));
    MPI_Finalize();
    return 0;
}
