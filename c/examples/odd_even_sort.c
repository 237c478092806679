/* Sorts numbers that are spread over the ranks. In each round pairs of neighbours exchange all they have
   (MPI_Sendrecv); the lower rank keeps the lower half and the higher rank the higher half. In even rounds rank 0
   is paired with 1 and 2 with 3, in odd rounds 1 with 2; behind as many rounds as there are ranks all is in
   order.

   c/rvmc-cc -n 4 -o odd_even_sort.image c/examples/odd_even_sort.c && rvmc run < odd_even_sort.image */
#include <mpi.h>
#include <stdio.h>
#include <string.h>

enum { COUNT = 6, TAG = 1 };

static void show(int rank, const char *what, const int *numbers)
{
    printf("rank %d %s", rank, what);
    for (int i = 0; i < COUNT; i++)
        printf(" %d", numbers[i]);
    printf("\n");
}

/* numbers in no order, others on each rank */
static void draw(int rank, int *numbers)
{
    unsigned seed = 7u + 31u * (unsigned)rank;

    for (int i = 0; i < COUNT; i++) {
        seed = seed * 1103515245u + 12345u;
        numbers[i] = (int)(seed >> 16) % 100;
    }
}

static void sort(int *numbers)
{
    for (int i = 1; i < COUNT; i++) {
        int moved = numbers[i], j = i;

        for (; j > 0 && numbers[j - 1] > moved; j--)
            numbers[j] = numbers[j - 1];
        numbers[j] = moved;
    }
}

/* keeps the lower half of two sorted lists */
static void keep_lower(int *mine, const int *theirs)
{
    int kept[COUNT];

    for (int k = 0, i = 0, j = 0; k < COUNT; k++)
        kept[k] = mine[i] <= theirs[j] ? mine[i++] : theirs[j++];
    memcpy(mine, kept, sizeof kept);
}

static void keep_higher(int *mine, const int *theirs)
{
    int kept[COUNT];

    for (int k = COUNT - 1, i = k, j = k; k >= 0; k--)
        kept[k] = mine[i] > theirs[j] ? mine[i--] : theirs[j--];
    memcpy(mine, kept, sizeof kept);
}

static void sort_together(int rank, int size, int *mine)
{
    int theirs[COUNT];

    sort(mine);
    for (int round = 0; round < size; round++) {
        int partner = (rank + round) % 2 == 0 ? rank + 1 : rank - 1;

        if (partner < 0 || partner >= size)
            continue;
        MPI_Sendrecv(mine, COUNT, MPI_INT, partner, TAG, theirs, COUNT, MPI_INT, partner, TAG, MPI_COMM_WORLD,
                     MPI_STATUS_IGNORE);
        if (rank < partner)
            keep_lower(mine, theirs);
        else
            keep_higher(mine, theirs);
    }
}

int main(int argc, char **argv)
{
    int rank, size, numbers[COUNT];

    MPI_Init(&argc, &argv);
    MPI_Comm_rank(MPI_COMM_WORLD, &rank);
    MPI_Comm_size(MPI_COMM_WORLD, &size);
    draw(rank, numbers);
    show(rank, "has", numbers);
    sort_together(rank, size, numbers);
    show(rank, "keeps", numbers);
    MPI_Finalize();
    return 0;
}
