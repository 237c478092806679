#include <mpi.h>
#include <stdio.h>

int main(int argc, char **argv)
{
    int rank;
    int numbers[8] = {0}, size;
    char room[MPI_BSEND_OVERHEAD + sizeof numbers], *back;

    MPI_Init(&argc, &argv);
    MPI_Comm_rank(MPI_COMM_WORLD, &rank);
    if (rank == 0) {
        MPI_Buffer_attach(room, MPI_BSEND_OVERHEAD + sizeof(int));
        MPI_Bsend(numbers, 8, MPI_INT, 1, 7, MPI_COMM_WORLD); /* A */
        MPI_Buffer_detach(&back, &size);
    } else {
        MPI_Recv(numbers, 8, MPI_INT, 0, 7, MPI_COMM_WORLD, MPI_STATUS_IGNORE);
    }
    printf("rank %d has %d\n", rank, numbers[7]);
    MPI_Finalize();
    return 0;
}
