#include <mpi.h>
#include <stdio.h>

/* counts the primes below n */
static int primes(int n)
{
    int count = 0;
    for (int i = 2; i < n; i++) {
        int divisors = 0;
        for (int k = 2; k < i; k++)
            divisors += i % k == 0;
        count += divisors == 0;
    }
    return count;
}

int main(int argc, char **argv)
{
    int rank, count = 0;
    MPI_Init(&argc, &argv);
    MPI_Comm_rank(MPI_COMM_WORLD, &rank);
    if (rank == 1) {
        count = primes(1000);
        MPI_Send(&count, 1, MPI_INT, 0, 0, MPI_COMM_WORLD);
    } else {
        MPI_Recv(&count, 1, MPI_INT, 1, 0, MPI_COMM_WORLD, MPI_STATUS_IGNORE);
        printf("%d primes\n", count);
    }
    MPI_Finalize();
    return 0;
}
