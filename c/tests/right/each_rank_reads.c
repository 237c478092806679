/* Each rank reads a line: rank 0 gets it, and the others find the end. */
#include <mpi.h>
#include <stdio.h>

int main(int argc, char *argv[])
{
    char line[80];
    int rank;

    MPI_Init(&argc, &argv);
    MPI_Comm_rank(MPI_COMM_WORLD, &rank);
    if (fgets(line, sizeof(line), stdin) != NULL)
        printf("rank %d read: %s", rank, line);
    else
        printf("rank %d found the end\n", rank);
    MPI_Finalize();
    return 0;
}
