/* Sorts numbers that are spread over the ranks by one exchange. All ranks show each other a few numbers of
   theirs (MPI_Allgather), and choose by these the bounds of as many buckets as there are ranks. Each sends each
   what belongs into its bucket: first how many numbers (MPI_Alltoall), then the numbers (MPI_Isend, MPI_Irecv).
   MPI_Scan tells a rank how many numbers stand up to the end of its bucket.

   c/rvmc-cc -n 4 -o sample_sort.image c/examples/sample_sort.c && rvmc run < sample_sort.image */
#include <mpi.h>
#include <stdio.h>

enum { COUNT = 12, MOST_RANKS = 8, TAG = 1 };

static void draw(int rank, int *numbers)
{
    unsigned seed = 5u + 17u * (unsigned)rank;

    for (int i = 0; i < COUNT; i++) {
        seed = seed * 1103515245u + 12345u;
        numbers[i] = (int)(seed >> 16) % 1000;
    }
}

static void sort(int *numbers, int count)
{
    for (int i = 1; i < count; i++) {
        int moved = numbers[i], j = i;

        for (; j > 0 && numbers[j - 1] > moved; j--)
            numbers[j] = numbers[j - 1];
        numbers[j] = moved;
    }
}

/* the bounds between the buckets, the same on all ranks: each shows as many numbers as there are ranks */
static void choose_bounds(int size, const int *sorted, int *bounds)
{
    int shown[MOST_RANKS], all[MOST_RANKS * MOST_RANKS];

    for (int r = 0; r < size; r++)
        shown[r] = sorted[r * COUNT / size];
    MPI_Allgather(shown, size, MPI_INT, all, size, MPI_INT, MPI_COMM_WORLD);
    sort(all, size * size);
    for (int r = 1; r < size; r++)
        bounds[r - 1] = all[r * size + size / 2 - 1];
}

/* how many of the sorted numbers belong into each bucket */
static void count_buckets(int size, const int *sorted, const int *bounds, int *counts)
{
    for (int r = 0, i = 0; r < size; r++) {
        counts[r] = 0;
        for (; i < COUNT && (r == size - 1 || sorted[i] <= bounds[r]); i++)
            counts[r]++;
    }
}

/* sends all buckets and receives the own one, in the order of the ranks; returns how many numbers it has */
static int exchange(int size, const int *sorted, const int *counts, int *bucket)
{
    int coming[MOST_RANKS], sent = 0, received = 0;
    MPI_Request requests[2 * MOST_RANKS];

    MPI_Alltoall(counts, 1, MPI_INT, coming, 1, MPI_INT, MPI_COMM_WORLD);
    for (int r = 0; r < size; r++) {
        MPI_Irecv(bucket + received, coming[r], MPI_INT, r, TAG, MPI_COMM_WORLD, &requests[r]);
        received += coming[r];
    }
    for (int r = 0; r < size; r++) {
        MPI_Isend(sorted + sent, counts[r], MPI_INT, r, TAG, MPI_COMM_WORLD, &requests[size + r]);
        sent += counts[r];
    }
    MPI_Waitall(2 * size, requests, MPI_STATUSES_IGNORE);
    return received;
}

static void show(int rank, const int *bucket, int count)
{
    int last = 0;

    MPI_Scan(&count, &last, 1, MPI_INT, MPI_SUM, MPI_COMM_WORLD);
    printf("rank %d has %d numbers, up to place %d:", rank, count, last);
    for (int i = 0; i < count; i++)
        printf(" %d", bucket[i]);
    printf("\n");
}

int main(int argc, char **argv)
{
    int rank, size, count, numbers[COUNT], bucket[COUNT * MOST_RANKS], bounds[MOST_RANKS], counts[MOST_RANKS];

    MPI_Init(&argc, &argv);
    MPI_Comm_rank(MPI_COMM_WORLD, &rank);
    MPI_Comm_size(MPI_COMM_WORLD, &size);
    draw(rank, numbers);
    sort(numbers, COUNT);
    choose_bounds(size, numbers, bounds);
    count_buckets(size, numbers, bounds, counts);
    count = exchange(size, numbers, counts, bucket);
    sort(bucket, count);
    show(rank, bucket, count);
    MPI_Finalize();
    return 0;
}
