#include <mpi.h>
#include <stdio.h>

int main(int argc, char **argv)
{
    int rank;
    int numbers[6] = {1, 2, 3, 4, 5, 6};
    MPI_Datatype column;
    MPI_Request request;

    MPI_Init(&argc, &argv);
    MPI_Comm_rank(MPI_COMM_WORLD, &rank);
    MPI_Type_vector(3, 1, 2, MPI_INT, &column);
    MPI_Type_commit(&column);
    if (rank == 0) {
        MPI_Isend(numbers, 1, column, 1, 7, MPI_COMM_WORLD, &request); /* A */
        for (int i = 1; i < 6; i += 2)
            numbers[i] = 0; /* B */
        MPI_Wait(&request, MPI_STATUS_IGNORE);
    } else {
        MPI_Recv(numbers, 1, column, 0, 7, MPI_COMM_WORLD, MPI_STATUS_IGNORE);
    }
    MPI_Type_free(&column);
    printf("rank %d has %d and %d\n", rank, numbers[4], numbers[5]);
    MPI_Finalize();
    return 0;
}
