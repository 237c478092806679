/* Groups: what is made of them, what compares equal, and ranks of one in another.

   c/rvmc-cc -n 6 -o groups.image c/programs/groups.c && rvmc run < groups.image */
#include <mpi.h>
#include <stdio.h>

static MPI_Group world;

static void show(const char *name, MPI_Group group)
{
    int size, rank, ranks[6] = {0, 1, 2, 3, 4, 5}, in_world[6];

    MPI_Group_size(group, &size);
    MPI_Group_rank(group, &rank);
    MPI_Group_translate_ranks(group, size, ranks, world, in_world);
    printf("%s: %s%d of %d:", name, rank == MPI_UNDEFINED ? "none " : "", rank == MPI_UNDEFINED ? 0 : rank, size);
    for (int i = 0; i < size; i++)
        printf(" %d", in_world[i]);
    printf("\n");
}

static void compare(const char *name, MPI_Group one, MPI_Group two)
{
    int answer;

    MPI_Group_compare(one, two, &answer);
    printf("%s: %s\n", name, answer == MPI_IDENT ? "identical" : answer == MPI_SIMILAR ? "similar" : "unequal");
}

static void translate(MPI_Group one, MPI_Group two)
{
    int ranks[3] = {2, MPI_PROC_NULL, 0}, others[3];

    MPI_Group_translate_ranks(one, 3, ranks, two, others);
    for (int i = 0; i < 3; i++)
        printf("rank %d is %d\n", ranks[i] == MPI_PROC_NULL ? -1 : ranks[i],
               others[i] == MPI_UNDEFINED ? -9 : others[i] == MPI_PROC_NULL ? -1 : others[i]);
}

int main(int argc, char *argv[])
{
    int some[3] = {4, 1, 2}, more[3] = {2, 3, 4}, ranges[2][3] = {{5, 1, -2}, {0, 4, 4}};
    MPI_Group one, two, made, empty;

    MPI_Init(&argc, &argv);
    MPI_Comm_group(MPI_COMM_WORLD, &world);
    MPI_Group_incl(world, 3, some, &one);
    MPI_Group_incl(world, 3, more, &two);
    show("world", world);
    show("one", one);
    show("two", two);
    MPI_Group_union(one, two, &made);
    show("union", made);
    MPI_Group_free(&made);
    MPI_Group_intersection(one, two, &made);
    show("intersection", made);
    MPI_Group_free(&made);
    MPI_Group_difference(one, two, &made);
    show("difference", made);
    MPI_Group_free(&made);
    MPI_Group_excl(world, 3, some, &made);
    show("without", made);
    MPI_Group_free(&made);
    MPI_Group_range_incl(world, 2, ranges, &made);
    show("ranges", made);
    MPI_Group_free(&made);
    MPI_Group_range_excl(world, 2, ranges, &made);
    show("without ranges", made);
    compare("others", one, made);
    MPI_Group_free(&made);
    MPI_Group_incl(two, 0, some, &empty);
    compare("empty", empty, MPI_GROUP_EMPTY);
    MPI_Group_intersection(one, two, &made);
    compare("parts", made, one);
    MPI_Group_union(made, one, &made);
    compare("order", made, one);
    compare("the same", one, one);
    translate(one, two);
    MPI_Group_free(&one);
    printf("freed: %d\n", one == MPI_GROUP_NULL);
    MPI_Finalize();
    return 0;
}
