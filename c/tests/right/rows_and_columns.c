/* rows_and_columns.c: broadcasts along the rows and the columns of a grid of 2 by 2. Wrong: some ranks begin with their row, others
   with their column, and each broadcast may wait for the other one (MPI 4.1, 6.14). */
#include <mpi.h>
#include <stdio.h>

int main(int argc, char **argv)
{
    int rank, a, b;
    MPI_Comm row, column;

    MPI_Init(&argc, &argv);
    MPI_Comm_rank(MPI_COMM_WORLD, &rank);
    MPI_Comm_split(MPI_COMM_WORLD, rank / 2, rank, &row);
    MPI_Comm_split(MPI_COMM_WORLD, rank % 2, rank, &column);
    a = b = rank;
#ifdef RIGHT
    if (1) {
#else
    if (rank == 0 || rank == 3) {
#endif
        MPI_Bcast(&a, 1, MPI_INT, rank / 2, row);
        MPI_Bcast(&b, 1, MPI_INT, 1 - rank % 2, column);
    } else {
        MPI_Bcast(&b, 1, MPI_INT, 1 - rank % 2, column);
        MPI_Bcast(&a, 1, MPI_INT, rank / 2, row);
    }
    printf("rank %d: %d %d\n", rank, a, b);
    MPI_Comm_free(&row);
    MPI_Comm_free(&column);
    MPI_Finalize();
    return 0;
}
