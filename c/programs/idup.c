/* Copies of communicators by calls that don't wait: several at a time, completed in any order, while messages go on, and with
   attributes and hints.

   c/rvmc-cc -n 3 -o idup.image c/programs/idup.c && rvmc run < idup.image */
#include <mpi.h>
#include <stdio.h>

static void sum(const char *name, MPI_Comm comm, int value)
{
    int rank, all;

    MPI_Comm_rank(comm, &rank);
    MPI_Allreduce(&value, &all, 1, MPI_INT, MPI_SUM, comm);
    printf("%s: rank %d, sum %d\n", name, rank, all);
}

int main(int argc, char *argv[])
{
    int rank, value = 0, key, flag;
    long found;
    char hint[8];
    MPI_Comm one, two, three, backwards, parts[2];
    MPI_Request requests[2], request;
    MPI_Info info, got;

    MPI_Init(&argc, &argv);
    MPI_Comm_rank(MPI_COMM_WORLD, &rank);
    MPI_Comm_split(MPI_COMM_WORLD, 0, -rank, &backwards);
    MPI_Comm_idup(MPI_COMM_WORLD, &one, &request);
    MPI_Wait(&request, MPI_STATUS_IGNORE);
    /* rank 1 begins its copy when rank 0, which has begun, says so */
    if (rank == 1)
        MPI_Recv(&value, 1, MPI_INT, 0, 0, MPI_COMM_WORLD, MPI_STATUS_IGNORE);
    MPI_Comm_idup(one, &two, &request);
    if (rank == 0)
        MPI_Send(&value, 1, MPI_INT, 1, 0, MPI_COMM_WORLD);
    MPI_Wait(&request, MPI_STATUS_IGNORE);
    sum("one", one, rank);
    sum("two", two, rank * rank);
    MPI_Comm_free(&two);

    MPI_Comm_idup(backwards, parts, requests);
    MPI_Comm_idup(backwards, parts + 1, requests + 1);
    MPI_Wait(requests + 1, MPI_STATUS_IGNORE);
    sum("second", parts[1], 10 * rank);
    MPI_Wait(requests, MPI_STATUS_IGNORE);
    sum("first", parts[0], 100 * rank);
    MPI_Comm_free(parts);
    MPI_Comm_free(parts + 1);

    MPI_Comm_create_keyval(MPI_COMM_DUP_FN, MPI_COMM_NULL_DELETE_FN, &key, NULL);
    MPI_Comm_set_attr(one, key, (void *)77L);
    MPI_Info_create(&info);
    MPI_Info_set(info, "mpi_assert_no_any_tag", "false");
    MPI_Comm_idup(one, &two, requests);
    MPI_Comm_idup_with_info(one, info, &three, requests + 1);
    MPI_Info_free(&info);
    MPI_Waitall(2, requests, MPI_STATUSES_IGNORE);
    MPI_Comm_get_attr(two, key, &found, &flag);
    MPI_Comm_get_info(three, &got);
    printf("attribute %ld\n", flag ? found : -1);
    MPI_Info_get(got, "mpi_assert_no_any_tag", 7, hint, &flag);
    printf("hint %s\n", flag ? hint : "none");
    MPI_Info_free(&got);
    for (int done = 0; !done;)
        MPI_Testall(2, requests, &done, MPI_STATUSES_IGNORE);
    sum("with hints", three, rank);
    MPI_Comm_free(&three);
    MPI_Comm_free(&two);
    MPI_Comm_free(&one);
    MPI_Comm_free(&backwards);
    MPI_Comm_free_keyval(&key);
    MPI_Finalize();
    return 0;
}
