/* Addresses: MPI_Get_address, MPI_Aint_add and MPI_Aint_diff, MPI_BOTTOM, and memory from MPI_Alloc_mem.

   c/rvmc-cc -n 2 -o addresses.image c/programs/addresses.c && rvmc run < addresses.image */
#include <mpi.h>
#include <stdio.h>

struct cell {
    int number;
    double weight[3];
};

int main(int argc, char *argv[])
{
    int rank;
    struct cell cells[4];
    MPI_Aint first, third, weight;
    double *memory;

    MPI_Init(&argc, &argv);
    MPI_Comm_rank(MPI_COMM_WORLD, &rank);
    MPI_Get_address(&cells[0], &first);
    MPI_Get_address(&cells[2], &third);
    MPI_Get_address(&cells[2].weight[1], &weight);
    printf("the third cell is %ld bytes behind the first\n", (long)MPI_Aint_diff(third, first));
    printf("its second weight is %ld bytes behind its begin\n", (long)MPI_Aint_diff(weight, third));
    printf("and back: %s\n", MPI_Aint_add(first, MPI_Aint_diff(weight, first)) == weight ? "the same" : "WRONG");

    MPI_Alloc_mem(5 * sizeof(double), MPI_INFO_NULL, &memory);
    for (int i = 0; i < 5; i++)
        memory[i] = rank == 0 ? i / 4.0 : -1.0;
    MPI_Bcast(memory, 5, MPI_DOUBLE, 0, MPI_COMM_WORLD);
    for (int i = 0; i < 5; i++)
        printf("%g ", memory[i]);
    printf("\n");
    MPI_Free_mem(memory);
    MPI_Finalize();
    return 0;
}
