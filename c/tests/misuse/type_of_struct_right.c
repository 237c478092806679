#include <mpi.h>
#include <stdio.h>

int main(int argc, char **argv)
{
    int rank;
    struct { double weight; int number; } one = {1.5, 2};
    int lengths[2] = {1, 1};
    MPI_Aint places[2] = {0, sizeof(double)};
    MPI_Datatype parts[2] = {MPI_DOUBLE, MPI_INT}, both;

    MPI_Init(&argc, &argv);
    MPI_Comm_rank(MPI_COMM_WORLD, &rank);
    MPI_Type_create_struct(2, lengths, places, parts, &both);
    MPI_Type_commit(&both);
    if (rank == 0)
        MPI_Send(&one, 1, both, 1, 7, MPI_COMM_WORLD); /* A */
    else
        MPI_Recv(&one, 1, both, 0, 7, MPI_COMM_WORLD, MPI_STATUS_IGNORE); /* B */
    MPI_Type_free(&both);
    printf("rank %d has %d\n", rank, one.number);
    MPI_Finalize();
    return 0;
}
