#include <mpi.h>
#include <stdio.h>

int main(int argc, char **argv)
{
    int rank;
    int number, all = 0;

    MPI_Init(&argc, &argv);
    MPI_Comm_rank(MPI_COMM_WORLD, &rank);
    number = rank;
    if (rank > 0) {
        MPI_Send(&number, 1, MPI_INT, 0, 7, MPI_COMM_WORLD); /* B */
    } else {
        for (int i = 1; i < 3; i++) {
            MPI_Recv(&number, 1, MPI_INT, MPI_ANY_SOURCE, 7, MPI_COMM_WORLD, MPI_STATUS_IGNORE); /* A */
            all = 10 * all + number;
        }
        printf("rank 0 has %d\n", all);
    }
    MPI_Finalize();
    return 0;
}
