/* counts_returned.c: errors are returned, and nobody looks at them. Wrong: the ranks broadcast different counts. */
#include <mpi.h>
#include <stdio.h>

int main(int argc, char **argv)
{
    int rank, x[3] = {0};

    MPI_Init(&argc, &argv);
    MPI_Comm_set_errhandler(MPI_COMM_WORLD, MPI_ERRORS_RETURN);
    MPI_Comm_rank(MPI_COMM_WORLD, &rank);
#ifdef RIGHT
    MPI_Bcast(x, 2, MPI_INT, 0, MPI_COMM_WORLD);
#else
    MPI_Bcast(x, rank == 0 ? 2 : 3, MPI_INT, 0, MPI_COMM_WORLD);
#endif
    printf("end\n");
    MPI_Finalize();
    return 0;
}
