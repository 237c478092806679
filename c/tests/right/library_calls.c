/* Spends its time in the C library: sorts, prints and reads numbers, and adds doubles up over the ranks. */
#include <mpi.h>
#include <stdio.h>
#include <stdlib.h>

static int by_size(const void *a, const void *b)
{
    int x = *(const int *)a, y = *(const int *)b;
    return (x > y) - (x < y);
}

static double mean(const int *numbers, int count)
{
    double sum = 0;
    for (int i = 0; i < count; i++)
        sum += numbers[i];
    return sum / count;
}

int main(int argc, char **argv)
{
    MPI_Init(&argc, &argv);
    int rank;
    MPI_Comm_rank(MPI_COMM_WORLD, &rank);

    int numbers[40];
    for (int i = 0; i < 40; i++)
        numbers[i] = (i * 7919 + rank * 31) % 101;
    qsort(numbers, 40, sizeof numbers[0], by_size);

    char *text = malloc(100);
    snprintf(text, 100, "%.3f %d", mean(numbers, 40), numbers[3]);
    char *rest;
    double read = strtod(text, &rest);
    long third = strtol(rest, NULL, 10);

    double all;
    MPI_Allreduce(&read, &all, 1, MPI_DOUBLE, MPI_SUM, MPI_COMM_WORLD);
    if (rank == 0)
        printf("%s: %g of all, and then %ld\n", text, all, third);
    free(text);
    MPI_Finalize();
    return 0;
}
