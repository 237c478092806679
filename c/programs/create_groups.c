/* Communicators of groups: by MPI_Comm_create, of one group and of two that share no rank, and by MPI_Comm_create_group, which
   only the members call.

   c/rvmc-cc -n 5 -o create_groups.image c/programs/create_groups.c && rvmc run < create_groups.image */
#include <mpi.h>
#include <stdio.h>

static void show(const char *name, MPI_Comm comm)
{
    int rank, size, value, sum, world;

    if (comm == MPI_COMM_NULL) {
        printf("%s: none\n", name);
        return;
    }
    MPI_Comm_rank(MPI_COMM_WORLD, &world);
    MPI_Comm_rank(comm, &rank);
    MPI_Comm_size(comm, &size);
    value = 1 << world;
    MPI_Scan(&value, &sum, 1, MPI_INT, MPI_SUM, comm);
    printf("%s: %d of %d, scan %d\n", name, rank, size, sum);
    MPI_Comm_free(&comm);
}

int main(int argc, char *argv[])
{
    int rank, odd[2] = {3, 1}, even[3] = {4, 0, 2}, most[4] = {3, 2, 1, 0};
    MPI_Group world, odds, evens, many;
    MPI_Comm comm;

    MPI_Init(&argc, &argv);
    MPI_Comm_rank(MPI_COMM_WORLD, &rank);
    MPI_Comm_group(MPI_COMM_WORLD, &world);
    MPI_Group_incl(world, 2, odd, &odds);
    MPI_Group_incl(world, 3, even, &evens);
    MPI_Group_incl(world, 4, most, &many);
    MPI_Comm_create(MPI_COMM_WORLD, odds, &comm);
    show("odd", comm);
    MPI_Comm_create(MPI_COMM_WORLD, rank % 2 ? odds : evens, &comm);
    show("both", comm);
    MPI_Comm_create(MPI_COMM_WORLD, MPI_GROUP_EMPTY, &comm);
    show("empty", comm);
    if (rank % 2) {
        MPI_Comm_create_group(MPI_COMM_WORLD, odds, 9, &comm);
        show("odd group", comm);
    }
    if (rank < 4) {
        MPI_Comm_create_group(MPI_COMM_WORLD, many, 9, &comm);
        show("backwards", comm);
    }
    MPI_Group_free(&world);
    MPI_Group_free(&odds);
    MPI_Group_free(&evens);
    MPI_Group_free(&many);
    MPI_Finalize();
    return 0;
}
