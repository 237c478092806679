/* A parallel merge sort: rank 0 scatters the numbers, each rank sorts its share with qsort, and the shares are merged up
   a binary tree.

   c/rvmc-cc -n 8 -o merge_sort.image c/programs/merge_sort.c && rvmc run < merge_sort.image */
#include <mpi.h>
#include <stdio.h>
#include <stdlib.h>
#include <string.h>

#define PER_RANK 12

static int compare(const void *a, const void *b)
{
    int x = *(const int *)a, y = *(const int *)b;

    return (x > y) - (x < y);
}

static int *merge(const int *a, int n, const int *b, int m)
{
    int *c = malloc((n + m) * sizeof(int)), i = 0, j = 0, k = 0;

    while (i < n && j < m)
        c[k++] = a[i] <= b[j] ? a[i++] : b[j++];
    memcpy(c + k, a + i, (n - i) * sizeof(int));
    memcpy(c + k + n - i, b + j, (m - j) * sizeof(int));
    return c;
}

int main(int argc, char *argv[])
{
    int rank, size, count = PER_RANK, step;
    int *numbers = NULL, *mine, *theirs, *both;
    MPI_Status status;

    MPI_Init(&argc, &argv);
    MPI_Comm_rank(MPI_COMM_WORLD, &rank);
    MPI_Comm_size(MPI_COMM_WORLD, &size);
    if (rank == 0) {
        unsigned seed = 12345;

        numbers = malloc(size * PER_RANK * sizeof(int));
        for (int i = 0; i < size * PER_RANK; i++) {
            seed = seed * 1103515245u + 12345u;
            numbers[i] = (int)(seed >> 16) % 1000;
        }
    }
    mine = malloc(count * sizeof(int));
    MPI_Scatter(numbers, count, MPI_INT, mine, count, MPI_INT, 0, MPI_COMM_WORLD);
    qsort(mine, count, sizeof(int), compare);

    for (step = 1; step < size; step *= 2) {
        if (rank % (2 * step) != 0) {
            MPI_Send(mine, count, MPI_INT, rank - step, 0, MPI_COMM_WORLD);
            break;
        }
        if (rank + step < size) {
            int more;

            MPI_Probe(rank + step, 0, MPI_COMM_WORLD, &status);
            MPI_Get_count(&status, MPI_INT, &more);
            theirs = malloc(more * sizeof(int));
            MPI_Recv(theirs, more, MPI_INT, rank + step, 0, MPI_COMM_WORLD, &status);
            both = merge(mine, count, theirs, more);
            free(mine);
            free(theirs);
            mine = both;
            count += more;
        }
    }
    if (rank == 0) {
        qsort(numbers, count, sizeof(int), compare);
        for (int i = 0; i < count; i++)
            printf("%d%c", mine[i], i % 16 == 15 ? '\n' : ' ');
        printf("%s\n", memcmp(numbers, mine, count * sizeof(int)) == 0 ? "as qsort sorts them" : "WRONG");
        free(numbers);
    }
    free(mine);
    MPI_Finalize();
    return 0;
}
