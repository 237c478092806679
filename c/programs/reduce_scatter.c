/* MPI_Reduce_scatter with parts of different lengths, an empty one among them, and MPI_Reduce_scatter_block.

   c/rvmc-cc -n 5 -o reduce_scatter.image c/programs/reduce_scatter.c && rvmc run < reduce_scatter.image */
#include <mpi.h>
#include <stdio.h>

int main(int argc, char *argv[])
{
    int rank, size, counts[8], out[64], in[8], total = 0;
    double reals[16], part[2] = {0, 0};

    MPI_Init(&argc, &argv);
    MPI_Comm_rank(MPI_COMM_WORLD, &rank);
    MPI_Comm_size(MPI_COMM_WORLD, &size);
    for (int r = 0; r < size; r++) {
        counts[r] = r == 2 ? 0 : r % 3 + 1;
        total += counts[r];
    }
    for (int i = 0; i < total; i++)
        out[i] = (rank + 1) * (i + 1);
    for (int i = 0; i < 8; i++)
        in[i] = -1;
    MPI_Reduce_scatter(out, in, counts, MPI_INT, MPI_SUM, MPI_COMM_WORLD);
    printf("sum:");
    for (int i = 0; i < 4; i++)
        printf(" %d", in[i]);
    MPI_Reduce_scatter(out, in, counts, MPI_INT, MPI_MIN, MPI_COMM_WORLD);
    printf("; least:");
    for (int i = 0; i < counts[rank]; i++)
        printf(" %d", in[i]);
    printf("\n");

    for (int i = 0; i < 2 * size; i++)
        reals[i] = rank == i / 2 ? 0.5 : 1.0 + i;
    MPI_Reduce_scatter_block(reals, part, 2, MPI_DOUBLE, MPI_SUM, MPI_COMM_WORLD);
    printf("sums of blocks: %g %g\n", part[0], part[1]);
    MPI_Reduce_scatter_block(reals, part, 2, MPI_DOUBLE, MPI_MIN, MPI_COMM_WORLD);
    printf("least of blocks: %g %g\n", part[0], part[1]);
    MPI_Finalize();
    return 0;
}
