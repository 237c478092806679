/* MPI_IN_PLACE in each collective that moves or reduces, but for the exchanges of all with all: at the root where there is
   one, else everywhere.

   c/rvmc-cc -n 4 -o in_place.image c/programs/in_place.c && rvmc run < in_place.image */
#include <mpi.h>
#include <stdio.h>

#define SIZE 4
#define ROOT 1

static int rank, numbers[SIZE * 2], counts[SIZE] = {1, 2, 0, 3}, places[SIZE] = {0, 1, 3, 4};

static void fill(void)
{
    for (int i = 0; i < SIZE * 2; i++)
        numbers[i] = 10 * rank + i;
}

static void show(const char *name)
{
    printf("%-20s", name);
    for (int i = 0; i < SIZE * 2; i++)
        printf(" %2d", numbers[i]);
    printf("\n");
}

static void move(void)
{
    MPI_Comm all = MPI_COMM_WORLD;
    int mine[3] = {rank * 10 + 7, rank * 10 + 8, rank * 10 + 9}, root = rank == ROOT;

    fill();
    MPI_Gather(root ? MPI_IN_PLACE : mine, 1, MPI_INT, numbers, 1, MPI_INT, ROOT, all);
    show("Gather");
    fill();
    MPI_Gatherv(root ? MPI_IN_PLACE : mine, counts[rank], MPI_INT, numbers, counts, places, MPI_INT, ROOT, all);
    show("Gatherv");
    fill();
    MPI_Scatter(numbers, 1, MPI_INT, root ? MPI_IN_PLACE : mine, 1, MPI_INT, ROOT, all);
    numbers[0] = mine[0];
    show("Scatter");
    fill();
    MPI_Scatterv(numbers, counts, places, MPI_INT, root ? MPI_IN_PLACE : mine, counts[rank], MPI_INT, ROOT, all);
    numbers[7] = mine[counts[rank] ? counts[rank] - 1 : 0];
    show("Scatterv");
    fill();
    MPI_Allgather(MPI_IN_PLACE, 0, MPI_DATATYPE_NULL, numbers, 2, MPI_INT, all);
    show("Allgather");
    fill();
    MPI_Allgatherv(MPI_IN_PLACE, 0, MPI_DATATYPE_NULL, numbers, counts, places, MPI_INT, all);
    show("Allgatherv");
}

static void reduce(void)
{
    MPI_Comm all = MPI_COMM_WORLD;
    int root = rank == ROOT, block[SIZE] = {2, 2, 2, 2};

    fill();
    MPI_Reduce(root ? MPI_IN_PLACE : numbers, root ? numbers : NULL, 3, MPI_INT, MPI_SUM, ROOT, all);
    show("Reduce");
    fill();
    MPI_Allreduce(MPI_IN_PLACE, numbers, 5, MPI_INT, MPI_MAX, all);
    show("Allreduce");
    fill();
    MPI_Scan(MPI_IN_PLACE, numbers, 5, MPI_INT, MPI_SUM, all);
    show("Scan");
    fill();
    MPI_Exscan(MPI_IN_PLACE, numbers, 5, MPI_INT, MPI_SUM, all);
    if (rank > 0)                                   /* rank 0's is undefined */
        show("Exscan");
    fill();
    MPI_Reduce_scatter(MPI_IN_PLACE, numbers, block, MPI_INT, MPI_SUM, all);
    printf("Reduce_scatter       %d %d\n", numbers[0], numbers[1]);
    fill();
    MPI_Reduce_scatter_block(MPI_IN_PLACE, numbers, 2, MPI_INT, MPI_SUM, all);
    printf("Reduce_scatter_block %d %d\n", numbers[0], numbers[1]);
}

int main(int argc, char *argv[])
{
    int size;

    MPI_Init(&argc, &argv);
    MPI_Comm_rank(MPI_COMM_WORLD, &rank);
    MPI_Comm_size(MPI_COMM_WORLD, &size);
    if (size != SIZE)
        MPI_Abort(MPI_COMM_WORLD, 1);
    move();
    reduce();
    MPI_Finalize();
    return 0;
}
