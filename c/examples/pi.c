/* Works out pi as the area below 4 / (1 + x * x) between 0 and 1, cut into strips: rank 0 tells all how many
   strips there are (MPI_Bcast), each rank sums every size-th strip, and the sums are added up at rank 0
   (MPI_Reduce). A sum of doubles hangs on the order in which they are added, so just six digits are printed.

   c/rvmc-cc -n 4 -o pi.image c/examples/pi.c && rvmc run < pi.image */
#include <mpi.h>
#include <stdio.h>

static double area_of_strips(int first, int step, int strips)
{
    double sum = 0;

    for (int i = first; i < strips; i += step) {
        double x = (i + 0.5) / strips;
        sum += 4 / (1 + x * x);
    }
    return sum / strips;
}

int main(int argc, char **argv)
{
    int rank, size, strips = 0;
    double part, pi = 0;

    MPI_Init(&argc, &argv);
    MPI_Comm_rank(MPI_COMM_WORLD, &rank);
    MPI_Comm_size(MPI_COMM_WORLD, &size);
    if (rank == 0)
        strips = 100;
    MPI_Bcast(&strips, 1, MPI_INT, 0, MPI_COMM_WORLD);
    part = area_of_strips(rank, size, strips);
    printf("rank %d adds %.6f\n", rank, part);
    MPI_Reduce(&part, &pi, 1, MPI_DOUBLE, MPI_SUM, 0, MPI_COMM_WORLD);
    if (rank == 0)
        printf("pi is about %.6f\n", pi);
    MPI_Finalize();
    return 0;
}
