#include <mpi.h>
#include <stdio.h>

/* Each rank broadcasts once, and each begins with its own turn. */
int main(int argc, char **argv)
{
    int rank, size, data[8];

    MPI_Init(&argc, &argv);
    MPI_Comm_rank(MPI_COMM_WORLD, &rank);
    MPI_Comm_size(MPI_COMM_WORLD, &size);
    data[rank] = 10 * rank;
    for (int i = 0; i < size; i++) {
#ifdef RIGHT
        int root = i;
#else
        int root = (rank + i) % size;
#endif
        MPI_Bcast(&data[root], 1, MPI_INT, root, MPI_COMM_WORLD);
    }
    printf("%d\n", data[size - 1]);
    return MPI_Finalize();
}
