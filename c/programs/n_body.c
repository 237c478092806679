/* Bodies that attract each other. Each rank moves its own bodies; the bodies of all ranks go round in a ring, so that each
   rank meets them all without having them all at once. The total energy is added up by MPI_Reduce.

   c/rvmc-cc -n 3 -o n_body.image c/programs/n_body.c && rvmc run < n_body.image */
#include <math.h>
#include <mpi.h>
#include <stdio.h>
#include <string.h>

#define MINE 2
#define STEPS 2
#define DT 0.01
#define SOFT 0.05

typedef struct {
    double x, y, vx, vy, mass;
} body_t;

/* Adds the accelerations that the others give, and half the potential. */
static double attract(const body_t *mine, const body_t *others, double (*a)[2], int same)
{
    double potential = 0.0;

    for (int i = 0; i < MINE; i++)
        for (int j = 0; j < MINE; j++) {
            double dx = others[j].x - mine[i].x, dy = others[j].y - mine[i].y, d2, d;

            if (same && i == j)
                continue;
            d2 = dx * dx + dy * dy + SOFT;
            d = sqrt(d2);
            a[i][0] += others[j].mass * dx / (d2 * d);
            a[i][1] += others[j].mass * dy / (d2 * d);
            potential -= 0.5 * mine[i].mass * others[j].mass / d;
        }
    return potential;
}

int main(int argc, char *argv[])
{
    int rank, size;
    body_t mine[MINE], visiting[MINE];
    double energy, total;

    MPI_Init(&argc, &argv);
    MPI_Comm_rank(MPI_COMM_WORLD, &rank);
    MPI_Comm_size(MPI_COMM_WORLD, &size);
    for (int i = 0; i < MINE; i++) {
        int number = rank * MINE + i;

        mine[i] = (body_t){number % 3 * 1.0, number / 3 * 1.5, 0.1 * number, 0.2 - 0.1 * number, 1.0 + 0.5 * number};
    }
    for (int step = 0; step < STEPS; step++) {
        double a[MINE][2] = {{0.0}};

        memcpy(visiting, mine, sizeof(mine));
        energy = 0.0;
        for (int k = 0; k < size; k++) {
            energy += attract(mine, visiting, a, k == 0);
            if (k < size - 1)
                MPI_Sendrecv_replace(visiting, MINE * 5, MPI_DOUBLE, (rank + 1) % size, 7, (rank + size - 1) % size, 7,
                                     MPI_COMM_WORLD, MPI_STATUS_IGNORE);
        }
        for (int i = 0; i < MINE; i++) {
            energy += 0.5 * mine[i].mass * (mine[i].vx * mine[i].vx + mine[i].vy * mine[i].vy);
            mine[i].vx += DT * a[i][0];
            mine[i].vy += DT * a[i][1];
            mine[i].x += DT * mine[i].vx;
            mine[i].y += DT * mine[i].vy;
        }
        MPI_Reduce(&energy, &total, 1, MPI_DOUBLE, MPI_SUM, 0, MPI_COMM_WORLD);
        if (rank == 0)
            printf("step %d: energy %.6f\n", step, total);
    }
    for (int i = 0; i < MINE; i++)
        printf("body %d at %.6f %.6f\n", rank * MINE + i, mine[i].x, mine[i].y);
    MPI_Finalize();
    return 0;
}
