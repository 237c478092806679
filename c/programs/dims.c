/* Grids for numbers of ranks, some with dimensions that are given.

   c/rvmc-cc -n 1 -o dims.image c/programs/dims.c && rvmc run < dims.image */
#include <mpi.h>
#include <stdio.h>

int main(int argc, char *argv[])
{
    static const int sizes[] = {1, 2, 3, 4, 5, 6, 7, 8, 12, 13, 16, 18, 24, 30, 36, 48, 60, 64, 72, 96, 100, 120, 210, 1000};
    int given[4][4] = {{24, 0, 3, 0}, {7, 7, 0, 0}, {12, 0, 0, 2}, {60, 5, 0, 4}};

    MPI_Init(&argc, &argv);
    for (unsigned i = 0; i < sizeof sizes / sizeof *sizes; i++) {
        printf("%d:", sizes[i]);
        for (int dimensions = 1; dimensions <= 4; dimensions++) {
            int dims[4] = {0};

            MPI_Dims_create(sizes[i], dimensions, dims);
            printf(" ");
            for (int k = 0; k < dimensions; k++)
                printf("%s%d", k ? "x" : " ", dims[k]);
        }
        printf("\n");
    }
    for (int i = 0; i < 4; i++) {
        MPI_Dims_create(given[i][0], 3, given[i] + 1);
        printf("%d: %d %d %d\n", given[i][0], given[i][1], given[i][2], given[i][3]);
    }
    MPI_Finalize();
    return 0;
}
