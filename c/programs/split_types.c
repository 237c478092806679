/* Communicators of ranks that share a machine, which all do here, and copies with hints.

   c/rvmc-cc -n 4 -o split_types.image c/programs/split_types.c && rvmc run < split_types.image */
#include <mpi.h>
#include <stdio.h>

int main(int argc, char *argv[])
{
    int rank, size, flag;
    char value[16];
    MPI_Comm comm, dup;
    MPI_Info info, found;

    MPI_Init(&argc, &argv);
    MPI_Comm_rank(MPI_COMM_WORLD, &rank);
    MPI_Comm_split_type(MPI_COMM_WORLD, MPI_COMM_TYPE_SHARED, -rank, MPI_INFO_NULL, &comm);
    MPI_Comm_rank(comm, &rank);
    MPI_Comm_size(comm, &size);
    printf("shared: %d of %d\n", rank, size);
    MPI_Comm_free(&comm);
    MPI_Comm_split_type(MPI_COMM_WORLD, rank == 1 ? MPI_UNDEFINED : MPI_COMM_TYPE_SHARED, 0, MPI_INFO_NULL, &comm);
    size = 0;
    if (comm != MPI_COMM_NULL) {
        MPI_Comm_size(comm, &size);
        MPI_Comm_free(&comm);
    }
    printf("without one: %d\n", size);

    MPI_Info_create(&info);
    MPI_Info_set(info, "mpi_assert_no_any_tag", "false");
    MPI_Comm_dup_with_info(MPI_COMM_WORLD, info, &dup);
    MPI_Comm_get_info(dup, &found);
    MPI_Info_get(found, "mpi_assert_no_any_tag", 15, value, &flag);
    printf("hint: %d %s\n", flag, flag ? value : "");
    MPI_Info_free(&found);
    MPI_Info_free(&info);
    MPI_Comm_free(&dup);
    MPI_Finalize();
    return 0;
}
