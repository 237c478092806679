#include <mpi.h>
#include <stdio.h>

/* Each rank of a half takes itself for the root. */
int main(int argc, char **argv)
{
    int rank, place, both[2], mine = 0;
    MPI_Comm half;

    MPI_Init(&argc, &argv);
    MPI_Comm_rank(MPI_COMM_WORLD, &rank);
    MPI_Comm_split(MPI_COMM_WORLD, rank / 2, rank, &half);
    MPI_Comm_rank(half, &place);
#ifdef RIGHT
    int root = 0;
#else
    int root = place;
#endif
    both[0] = 10 * rank;
    both[1] = 10 * rank + 1;
    MPI_Scatter(both, 1, MPI_INT, &mine, 1, MPI_INT, root, half);
    printf("%d got %d\n", rank, mine);
    MPI_Comm_free(&half);
    return MPI_Finalize();
}
