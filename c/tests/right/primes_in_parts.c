#include <mpi.h>
#include <stdio.h>

/* Rank 0 counts the primes below 1000, the others those below 20: nobody shares the work evenly. */
int main(int argc, char **argv)
{
    int rank, count = 0, end;
    MPI_Init(&argc, &argv);
    MPI_Comm_rank(MPI_COMM_WORLD, &rank);
    end = rank == 0 ? 1000 : 20;
    for (int i = 2; i < end; i++) {
        int divisors = 0;
        for (int k = 2; k < i; k++)
            divisors += i % k == 0;
        count += divisors == 0;
    }
    printf("%d primes below %d\n", count, end);
    MPI_Finalize();
    return 0;
}
