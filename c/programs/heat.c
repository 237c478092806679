/* The heat equation on a rod, explicit scheme. Each rank owns a piece of the rod with a ghost cell at either end, and
   the ghost cells are refreshed with MPI_Sendrecv in each step. MPI_PROC_NULL closes the two ends.

   c/rvmc-cc -n 4 -o heat.image c/programs/heat.c && rvmc run < heat.image */
#include <mpi.h>
#include <stdio.h>
#include <stdlib.h>

#define CELLS 16
#define STEPS 12
#define ALPHA 0.25

int main(int argc, char *argv[])
{
    int rank, size, left, right, local, i, step;
    double *u, *next, *swap, *all = NULL;
    double change, largest = 0.0, start, elapsed;

    MPI_Init(&argc, &argv);
    MPI_Comm_rank(MPI_COMM_WORLD, &rank);
    MPI_Comm_size(MPI_COMM_WORLD, &size);
    if (CELLS % size != 0) {
        if (rank == 0)
            fprintf(stderr, "%d cells can't be divided among %d ranks\n", CELLS, size);
        MPI_Abort(MPI_COMM_WORLD, 1);
    }
    local = CELLS / size;
    left = rank > 0 ? rank - 1 : MPI_PROC_NULL;
    right = rank < size - 1 ? rank + 1 : MPI_PROC_NULL;

    u = calloc(local + 2, sizeof(double));
    next = calloc(local + 2, sizeof(double));
    if (rank == 0)
        u[0] = next[0] = 100.0;                 /* the hot end; the other end stays at 0 */

    MPI_Barrier(MPI_COMM_WORLD);
    start = MPI_Wtime();
    for (step = 0; step < STEPS; step++) {
        MPI_Sendrecv(&u[1], 1, MPI_DOUBLE, left, 0, &u[local + 1], 1, MPI_DOUBLE, right, 0, MPI_COMM_WORLD,
                     MPI_STATUS_IGNORE);
        MPI_Sendrecv(&u[local], 1, MPI_DOUBLE, right, 1, &u[0], 1, MPI_DOUBLE, left, 1, MPI_COMM_WORLD,
                     MPI_STATUS_IGNORE);
        change = 0.0;
        for (i = 1; i <= local; i++) {
            double difference;

            next[i] = u[i] + ALPHA * (u[i - 1] - 2.0 * u[i] + u[i + 1]);
            difference = next[i] > u[i] ? next[i] - u[i] : u[i] - next[i];
            if (difference > change)
                change = difference;
        }
        next[0] = u[0];
        next[local + 1] = u[local + 1];
        swap = u;
        u = next;
        next = swap;
        MPI_Allreduce(&change, &largest, 1, MPI_DOUBLE, MPI_MAX, MPI_COMM_WORLD);
        if (rank == 0 && step % 4 == 3)
            printf("step %d: largest change %.6f\n", step + 1, largest);
    }
    elapsed = MPI_Wtime() - start;

    if (rank == 0)
        all = malloc(CELLS * sizeof(double));
    MPI_Gather(&u[1], local, MPI_DOUBLE, all, local, MPI_DOUBLE, 0, MPI_COMM_WORLD);
    if (rank == 0) {
        for (i = 0; i < CELLS; i++)
            printf("%.4f%c", all[i], i % 8 == 7 ? '\n' : ' ');
        if (elapsed < 0.0)
            printf("the clock went back\n");
    }
    free(all);
    free(u);
    free(next);
    MPI_Finalize();
    return 0;
}
