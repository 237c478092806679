/* Heat spreads from the upper border of a square plate. Each rank has some rows, and exchanges its border rows with its
   neighbours by nonblocking calls, so no send needs a buffer. */
#include <math.h>
#include <mpi.h>
#include <stdio.h>
#include <stdlib.h>

static double *row(double *plate, int number, int side)
{
    return plate + number * side;
}

static void exchange(double *plate, int rows, int side, int rank, int size)
{
    MPI_Request requests[4];
    int count = 0;

    if (rank > 0) {
        MPI_Irecv(row(plate, 0, side), side, MPI_DOUBLE, rank - 1, 0, MPI_COMM_WORLD, &requests[count++]);
        MPI_Isend(row(plate, 1, side), side, MPI_DOUBLE, rank - 1, 0, MPI_COMM_WORLD, &requests[count++]);
    }
    if (rank < size - 1) {
        MPI_Irecv(row(plate, rows + 1, side), side, MPI_DOUBLE, rank + 1, 0, MPI_COMM_WORLD, &requests[count++]);
        MPI_Isend(row(plate, rows, side), side, MPI_DOUBLE, rank + 1, 0, MPI_COMM_WORLD, &requests[count++]);
    }
    MPI_Waitall(count, requests, MPI_STATUSES_IGNORE);
}

int main(int argc, char **argv)
{
    int rank, size, side = argc > 1 ? atoi(argv[1]) : 256, steps = 0;
    double change, all;

    MPI_Init(&argc, &argv);
    MPI_Comm_rank(MPI_COMM_WORLD, &rank);
    MPI_Comm_size(MPI_COMM_WORLD, &size);

    int rows = side / size;
    double *now = calloc((rows + 2) * side, sizeof *now), *next = calloc((rows + 2) * side, sizeof *next);

    for (int j = 0; rank == 0 && j < side; j++)
        now[j] = next[j] = 100.0;
    do {
        exchange(now, rows, side, rank, size);
        change = 0;
        for (int i = 1; i <= rows; i++)
            for (int j = 1; j < side - 1; j++) {
                double *at = row(now, i, side) + j;
                double value = 0.25 * (at[-side] + at[side] + at[-1] + at[1]);

                change += fabs(value - *at);
                row(next, i, side)[j] = value;
            }
        double *other = now;
        now = next;
        next = other;
        MPI_Allreduce(&change, &all, 1, MPI_DOUBLE, MPI_SUM, MPI_COMM_WORLD);
        steps++;
    } while (all > 1.0 && steps < 20);
    if (rank == 0)
        printf("%d steps, the last changes %.3f\n", steps, all);
    MPI_Finalize();
    return 0;
}
