/* MPI_Alltoallw: each pair of ranks exchanges another type of numbers, at displacements in bytes.

   c/rvmc-cc -n 3 -o alltoallw.image c/programs/alltoallw.c && rvmc run < alltoallw.image */
#include <mpi.h>
#include <stdio.h>
#include <string.h>

#define PLACE 64

int main(int argc, char *argv[])
{
    static const MPI_Datatype kinds[3] = {MPI_CHAR, MPI_INT, MPI_DOUBLE};
    int rank, size, out_counts[3], in_counts[3], places[3];
    MPI_Datatype out_types[3], in_types[3];
    union { char bytes[PLACE]; int ints[PLACE / 4]; double doubles[PLACE / 8]; } out[3], in[3];

    MPI_Init(&argc, &argv);
    MPI_Comm_rank(MPI_COMM_WORLD, &rank);
    MPI_Comm_size(MPI_COMM_WORLD, &size);
    memset(in, 0, sizeof(in));
    memset(out, 0, sizeof(out));
    for (int r = 0; r < size; r++) {
        int kind = (rank + r) % 3;                  /* the same on both sides */

        out_counts[r] = rank + 2;
        in_counts[r] = r + 2;
        places[r] = r * PLACE;
        out_types[r] = in_types[r] = kinds[kind];
        for (int i = 0; i < out_counts[r]; i++)
            if (kind == 0)
                out[r].bytes[i] = (char)('a' + 5 * rank + i);
            else if (kind == 1)
                out[r].ints[i] = 100 * rank + 10 * r + i;
            else
                out[r].doubles[i] = rank + r / 10.0 + i / 100.0;
    }
    MPI_Alltoallw(out, out_counts, places, out_types, in, in_counts, places, in_types, MPI_COMM_WORLD);
    for (int r = 0; r < size; r++) {
        int kind = (rank + r) % 3;

        printf("from %d:", r);
        for (int i = 0; i < in_counts[r] + 1; i++)
            if (kind == 0)
                printf(" %c", in[r].bytes[i] ? in[r].bytes[i] : '.');
            else if (kind == 1)
                printf(" %d", in[r].ints[i]);
            else
                printf(" %.2f", in[r].doubles[i]);
        printf("\n");
    }
    MPI_Finalize();
    return 0;
}
