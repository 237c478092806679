/* MPI_IN_PLACE in MPI_Alltoall, MPI_Alltoallv and MPI_Alltoallw: what is sent stands where it is received. Each is done
   twice, which puts everything back.

   c/rvmc-cc -n 3 -o alltoall_in_place.image c/programs/alltoall_in_place.c && rvmc run < alltoall_in_place.image */
#include <mpi.h>
#include <stdio.h>

#define SIZE 3
#define PER 2

static void show(const char *name, const int *numbers, int count)
{
    printf("%s:", name);
    for (int i = 0; i < count; i++)
        printf(" %d", numbers[i]);
    printf("\n");
}

int main(int argc, char *argv[])
{
    int rank, size, whole[SIZE * PER], jagged[SIZE * SIZE], counts[SIZE], places[SIZE], bytes[SIZE];
    MPI_Datatype types[SIZE];

    MPI_Init(&argc, &argv);
    MPI_Comm_rank(MPI_COMM_WORLD, &rank);
    MPI_Comm_size(MPI_COMM_WORLD, &size);
    if (size != SIZE)
        MPI_Abort(MPI_COMM_WORLD, 1);
    for (int r = 0; r < SIZE; r++) {
        counts[r] = rank == r ? 1 : rank + r;       /* symmetric, since sends and receives share them */
        places[r] = r * SIZE;
        bytes[r] = places[r] * (int)sizeof(int);
        types[r] = MPI_INT;
    }
    for (int i = 0; i < SIZE * PER; i++)
        whole[i] = 100 * rank + i;
    for (int i = 0; i < SIZE * SIZE; i++)
        jagged[i] = 100 * rank + i;
    for (int time = 0; time < 2; time++) {
        MPI_Alltoall(MPI_IN_PLACE, 0, MPI_DATATYPE_NULL, whole, PER, MPI_INT, MPI_COMM_WORLD);
        show("Alltoall", whole, SIZE * PER);
        MPI_Alltoallv(MPI_IN_PLACE, NULL, NULL, MPI_DATATYPE_NULL, jagged, counts, places, MPI_INT, MPI_COMM_WORLD);
        show("Alltoallv", jagged, SIZE * SIZE);
    }
    for (int time = 0; time < 2; time++) {
        MPI_Alltoallw(MPI_IN_PLACE, NULL, NULL, NULL, jagged, counts, bytes, types, MPI_COMM_WORLD);
        show("Alltoallw", jagged, SIZE * SIZE);
    }
    MPI_Finalize();
    return 0;
}
