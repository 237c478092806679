#include <mpi.h>
#include <stdio.h>

/* Euclid's algorithm with a mistake: b never becomes 0. */
static int gcd(int a, int b)
{
    while (b != 0) {
        int t = b;
        b = a % b + 1;
        a = t;
    }
    return a;
}

int main(int argc, char **argv)
{
    int rank, result;
    MPI_Init(&argc, &argv);
    MPI_Comm_rank(MPI_COMM_WORLD, &rank);
    if (rank == 0) {
        result = gcd(12, 18);
        MPI_Send(&result, 1, MPI_INT, 1, 0, MPI_COMM_WORLD);
    } else {
        MPI_Recv(&result, 1, MPI_INT, 0, 0, MPI_COMM_WORLD, MPI_STATUS_IGNORE);
        printf("gcd is %d\n", result);
    }
    MPI_Finalize();
    return 0;
}
