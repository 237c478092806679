#include <mpi.h>
int main(int argc, char **argv) {
    int rank, word;
    MPI_Init(&argc, &argv); MPI_Comm_rank(MPI_COMM_WORLD, &rank);
    if (rank > 0) { MPI_Send(&rank, 1, MPI_INT, 0, 7, MPI_COMM_WORLD); return MPI_Finalize(); }
    MPI_Recv(&word, 1, MPI_INT, MPI_ANY_SOURCE, 7, MPI_COMM_WORLD, MPI_STATUS_IGNORE);
    MPI_Recv(&word, 1, MPI_INT, 2, 7, MPI_COMM_WORLD, MPI_STATUS_IGNORE);
    return MPI_Finalize(); }
