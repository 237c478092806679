/* Messages that are longer than the buffers that wait for them: MPI_Waitall, MPI_Testall, MPI_Waitsome return
   MPI_ERR_IN_STATUS, and each status has its own error.

   c/rvmc-cc -n 2 -o errors_in_statuses.image c/programs/errors_in_statuses.c && rvmc run < errors_in_statuses.image */
#include <mpi.h>
#include <stdio.h>

#define COUNT 4

static const char *name(int code)
{
    int class;

    MPI_Error_class(code, &class);
    return class == MPI_SUCCESS          ? "success"
           : class == MPI_ERR_TRUNCATE   ? "truncated"
           : class == MPI_ERR_IN_STATUS  ? "in the statuses"
           : class == MPI_ERR_PENDING    ? "pending"
                                         : "ANOTHER";
}

int main(int argc, char *argv[])
{
    int rank, in[COUNT][4], out[4] = {1, 2, 3, 4}, code, done, indices[COUNT];
    MPI_Request requests[COUNT];
    MPI_Status statuses[COUNT];

    MPI_Init(&argc, &argv);
    MPI_Comm_rank(MPI_COMM_WORLD, &rank);
    MPI_Comm_set_errhandler(MPI_COMM_WORLD, MPI_ERRORS_RETURN);
    for (int way = 0; way < 2; way++) {
        if (rank == 1)
            for (int i = 0; i < COUNT; i++)     /* the last has room for half a message */
                MPI_Irecv(in[i], i == COUNT - 1 ? 2 : 4, MPI_INT, 0, i, MPI_COMM_WORLD, &requests[i]);
        MPI_Barrier(MPI_COMM_WORLD);
        if (rank == 0)
            for (int i = 0; i < COUNT; i++)
                MPI_Send(out, 4, MPI_INT, 1, i, MPI_COMM_WORLD);
        MPI_Barrier(MPI_COMM_WORLD);
        if (rank == 0)
            continue;
        for (int i = 0; i < COUNT; i++)
            statuses[i].MPI_ERROR = MPI_SUCCESS;
        if (way == 0) {
            code = MPI_Waitall(COUNT, requests, statuses);
            printf("Waitall: %s:", name(code));
            for (int i = 0; i < COUNT; i++)
                printf(" %s", name(statuses[i].MPI_ERROR));
        } else {
            int left = COUNT, wrong = 0, right = 0;

            while (left > 0) {
                code = MPI_Waitsome(COUNT, requests, &done, indices, statuses);
                if (done == MPI_UNDEFINED)
                    break;
                for (int i = 0; i < done; i++) {
                    int error = code == MPI_SUCCESS ? MPI_SUCCESS : statuses[i].MPI_ERROR;

                    if (indices[i] == COUNT - 1)
                        wrong += error != MPI_SUCCESS;
                    else
                        right += error == MPI_SUCCESS;
                }
                left -= done;
            }
            printf("Waitsome: %d truncated, %d not", wrong, right);
        }
        printf("\n");
        for (int i = 0; i < COUNT; i++)
            printf("%d: %s\n", i, requests[i] == MPI_REQUEST_NULL ? "done" : "left");
    }
    MPI_Finalize();
    return 0;
}
