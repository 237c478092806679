/* wrong_communicators.c: wrong calls of groups, communicators and topologies, as in wrong.c: rank r of an image with -DFROM=N
   makes the one whose number is N + r, and wrong_communicators.expected has what each prints. */
#include <mpi.h>
#include <stdio.h>

#ifndef FROM
#define FROM 0
#endif

static int one, two, many[8], threes[1] = {3}, ranges[1][3] = {{0, 3, 0}}, index[2] = {1, 0}, edges[1] = {0};
static MPI_Comm world = MPI_COMM_WORLD, made;
static MPI_Group all, part;
static const int twice[2] = {1, 1};

static void wrong(int number)
{
    MPI_Comm_group(world, &all);
    switch (number) {
    case 0: MPI_Comm_free(&world); break;
    case 1: MPI_Comm_split(world, -5, 0, &made); break;
    case 2: MPI_Group_incl(MPI_GROUP_EMPTY, 1, many, &part); break;
    case 3: MPI_Group_size(MPI_GROUP_NULL, &one); break;
    case 4: MPI_Cart_create(MPI_COMM_SELF, 1, threes, threes, 0, &made); break;
    case 5: MPI_Cart_shift(world, 0, 1, &one, &two); break;
    case 6: for (;;) MPI_Comm_dup(MPI_COMM_SELF, &made);
    case 7: threes[0] = 2; MPI_Dims_create(7, 1, threes); break;
    case 8: MPI_Group_incl(all, 2, twice, &part); break;
    case 9: MPI_Group_range_incl(all, 1, ranges, &part); break;
    case 10: MPI_Comm_create(MPI_COMM_SELF, all, &made); break;
    case 11: MPI_Graph_create(MPI_COMM_SELF, 1, edges, index, 0, &made); MPI_Graph_create(world, 2, index, edges, 0, &made); break;
    case 12: MPI_Dist_graph_neighbors_count(world, &one, &two, many); break;
    case 13: MPI_Comm_rank(3, &one); break;
    case 14: MPI_Send(&one, 1, MPI_INT, 1, 0, MPI_COMM_SELF); break;
    default:
        for (int i = 0; i < 6; i++)
            MPI_Comm_dup(MPI_COMM_SELF, &made);
        MPI_Send(&one, 1, MPI_INT, 0, 0, MPI_COMM_SELF);
        break;
    }
}

int main(int argc, char **argv)
{
    int me;

    MPI_Init(&argc, &argv);
    MPI_Comm_rank(world, &me);
    wrong(FROM + me);
    printf("nothing was told\n");
    MPI_Finalize();
    return 0;
}
