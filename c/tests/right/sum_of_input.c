/* Rank 0 reads numbers from standard input, and all add up their part. */
#include <mpi.h>
#include <stdio.h>

int main(int argc, char *argv[])
{
    int rank, size, count = 0, numbers[100], part = 0, sum;

    MPI_Init(&argc, &argv);
    MPI_Comm_rank(MPI_COMM_WORLD, &rank);
    MPI_Comm_size(MPI_COMM_WORLD, &size);
    if (rank == 0)
        while (count < 100 && scanf("%d", &numbers[count]) == 1)
            count++;
    MPI_Bcast(&count, 1, MPI_INT, 0, MPI_COMM_WORLD);
    MPI_Bcast(numbers, count, MPI_INT, 0, MPI_COMM_WORLD);
    for (int i = rank; i < count; i += size)
        part += numbers[i];
    MPI_Reduce(&part, &sum, 1, MPI_INT, MPI_SUM, 0, MPI_COMM_WORLD);
    printf("rank %d has %d\n", rank, part);
    if (rank == 0)
        printf("%d numbers, sum %d\n", count, sum);
    MPI_Finalize();
    return 0;
}
