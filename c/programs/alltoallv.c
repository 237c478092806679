/* MPI_Alltoallv: rank r sends s + 1 numbers to rank s, with gaps between the blocks, and none at all in the second round to
   ranks with an odd number.

   c/rvmc-cc -n 4 -o alltoallv.image c/programs/alltoallv.c && rvmc run < alltoallv.image */
#include <mpi.h>
#include <stdio.h>
#include <string.h>

#define MOST 8
#define ROOM 128

int main(int argc, char *argv[])
{
    int rank, size, out[ROOM], in[ROOM], out_counts[MOST], in_counts[MOST], out_places[MOST], in_places[MOST];

    MPI_Init(&argc, &argv);
    MPI_Comm_rank(MPI_COMM_WORLD, &rank);
    MPI_Comm_size(MPI_COMM_WORLD, &size);
    for (int round = 0; round < 2; round++) {
        int out_end = 0, in_end = 0;

        for (int i = 0; i < ROOM; i++)
            in[i] = out[i] = -1;
        for (int r = 0; r < size; r++) {
            out_counts[r] = round == 1 && r % 2 == 1 ? 0 : r + 1;
            in_counts[r] = round == 1 && rank % 2 == 1 ? 0 : rank + 1;
            out_places[r] = out_end + 1;
            in_places[r] = in_end + 2;
            for (int i = 0; i < out_counts[r]; i++)
                out[out_places[r] + i] = 1000 * round + 100 * rank + 10 * r + i;
            out_end = out_places[r] + out_counts[r];
            in_end = in_places[r] + in_counts[r];
        }
        MPI_Alltoallv(out, out_counts, out_places, MPI_INT, in, in_counts, in_places, MPI_INT, MPI_COMM_WORLD);
        printf("round %d:", round);
        for (int i = 0; i < in_end + 1; i++)
            printf(" %d", in[i]);
        printf("\n");
    }
    MPI_Finalize();
    return 0;
}
