/* The classes of errors of wrong calls of communicators, groups and topologies, where errors return.

   c/rvmc-cc -n 2 -o topology_errors.image c/programs/topology_errors.c && rvmc run < topology_errors.image */
#include <mpi.h>
#include <stdio.h>

static void show(const char *name, int error)
{
    static const struct {
        int number;
        const char *name;
    } classes[] = {{MPI_ERR_COMM, "COMM"}, {MPI_ERR_GROUP, "GROUP"}, {MPI_ERR_RANK, "RANK"}, {MPI_ERR_ARG, "ARG"},
                   {MPI_ERR_DIMS, "DIMS"}, {MPI_ERR_TOPOLOGY, "TOPOLOGY"}, {MPI_SUCCESS, "SUCCESS"}};
    int error_class;

    MPI_Error_class(error, &error_class);
    for (unsigned i = 0; i < sizeof classes / sizeof *classes; i++)
        if (classes[i].number == error_class) {
            printf("%s: %s\n", name, classes[i].name);
            return;
        }
    printf("%s: %d\n", name, error_class);
}

int main(int argc, char *argv[])
{
    int dims[2] = {3, 3}, periods[2] = {0, 0}, one, two, outside[2] = {1, 5}, index[2] = {1, 2}, edges[2] = {1, 4};
    MPI_Comm world = MPI_COMM_WORLD, made, grid;
    MPI_Group group, part;

    MPI_Init(&argc, &argv);
    MPI_Comm_set_errhandler(MPI_COMM_WORLD, MPI_ERRORS_RETURN);
    MPI_Comm_set_errhandler(MPI_COMM_SELF, MPI_ERRORS_RETURN);
    MPI_Comm_group(MPI_COMM_WORLD, &group);
    show("free the world", MPI_Comm_free(&world));
    show("rank of no communicator", MPI_Comm_rank(MPI_COMM_NULL, &one));
    show("size of no group", MPI_Group_size(MPI_GROUP_NULL, &one));
    show("a rank outside", MPI_Group_excl(group, 2, outside, &part));
    show("ranks of others", MPI_Comm_create(MPI_COMM_SELF, group, &made));
    show("a shift of no grid", MPI_Cart_shift(MPI_COMM_WORLD, 0, 1, &one, &two));
    show("edges of no graph", MPI_Graphdims_get(MPI_COMM_WORLD, &one, &two));
    show("edges outside", MPI_Graph_create(MPI_COMM_WORLD, 2, index, edges, 0, &made));
    dims[0] = 5;
    dims[1] = 0;
    show("ranks that don't fit", MPI_Dims_create(8, 2, dims));
    dims[0] = 2;
    dims[1] = 1;
    MPI_Cart_create(MPI_COMM_WORLD, 2, dims, periods, 0, &grid);
    MPI_Comm_get_errhandler(grid, &(MPI_Errhandler){MPI_ERRHANDLER_NULL});
    show("no such dimension", MPI_Cart_shift(grid, 2, 1, &one, &two));
    outside[0] = 2;
    show("no such coordinates", MPI_Cart_rank(grid, outside, &one));
    show("no such rank", MPI_Cart_coords(grid, 3, 2, dims));
    MPI_Comm_free(&grid);
    dims[0] = dims[1] = 3;
    show("a grid too large", MPI_Cart_create(MPI_COMM_WORLD, 2, dims, periods, 0, &grid));
    MPI_Finalize();
    return 0;
}
