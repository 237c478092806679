/* Pi as the integral of 4 / (1 + x * x) from 0 to 1, by the midpoint rule. The number of intervals is the program's
   argument. Rank 0 hands it to the others, and MPI_Reduce adds up what each found.

   c/rvmc-cc -n 4 --arg 100 -o pi_integral.image c/programs/pi_integral.c && rvmc run < pi_integral.image */
#include <math.h>
#include <mpi.h>
#include <stdio.h>
#include <stdlib.h>

static double f(double x)
{
    return 4.0 / (1.0 + x * x);
}

int main(int argc, char *argv[])
{
    int n = 0, rank, size, length;
    double mine, pi, h, sum, start = 0.0, stop;
    char name[MPI_MAX_PROCESSOR_NAME];

    MPI_Init(&argc, &argv);
    MPI_Comm_size(MPI_COMM_WORLD, &size);
    MPI_Comm_rank(MPI_COMM_WORLD, &rank);
    MPI_Get_processor_name(name, &length);
    printf("process %d of %d has a name: %s\n", rank, size, length > 0 && name[0] != '\0' ? "yes" : "no");
    fflush(stdout);

    if (rank == 0) {
        if (argc != 2) {
            fprintf(stderr, "usage: %s INTERVALS\n", argv[0]);
            MPI_Abort(MPI_COMM_WORLD, EXIT_FAILURE);
        }
        n = atoi(argv[1]);
        start = MPI_Wtime();
    }
    MPI_Bcast(&n, 1, MPI_INT, 0, MPI_COMM_WORLD);

    h = 1.0 / (double)n;
    sum = 0.0;
    for (int i = rank + 1; i <= n; i += size)
        sum += f(h * ((double)i - 0.5));
    mine = h * sum;
    MPI_Reduce(&mine, &pi, 1, MPI_DOUBLE, MPI_SUM, 0, MPI_COMM_WORLD);

    if (rank == 0) {
        stop = MPI_Wtime();
        printf("%d intervals: pi is about %.8f, wrong by %.8f\n", n, pi, fabs(pi - 3.141592653589793));
        printf("%s\n", stop >= start ? "timed" : "the clock went back");
    }
    MPI_Finalize();
    return 0;
}
