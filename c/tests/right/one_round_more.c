#include <mpi.h>
#include <stdio.h>

/* Off by one: ranks above 0 gather once more, and only send in that round. */
int main(int argc, char **argv)
{
    int rank, all[8];

    MPI_Init(&argc, &argv);
    MPI_Comm_rank(MPI_COMM_WORLD, &rank);
#ifdef RIGHT
    int last = 3;
#else
    int last = rank == 0 ? 3 : 4;
#endif
    for (int i = 0; i < last; i++) {
        int x = rank * i;
        MPI_Gather(&x, 1, MPI_INT, all, 1, MPI_INT, 0, MPI_COMM_WORLD);
    }
    if (rank == 0)
        printf("%d\n", all[1]);
    MPI_Finalize();
    return 0;
}
