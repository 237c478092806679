/* A solution of lesson 2: two rounds. The first finds the greatest number, the second passes it on to all.

   c/rvmc-cc -n 4 -o ring_most.image c/course/ring_most.c */
#include <mpi.h>
#include <stdio.h>

enum { FIND = 1, TELL = 2 };

int main(int argc, char **argv)
{
    static const int mine[] = {7, 3, 12, 5};
    int rank, size, left, right, most, found;

    MPI_Init(&argc, &argv);
    MPI_Comm_rank(MPI_COMM_WORLD, &rank);
    MPI_Comm_size(MPI_COMM_WORLD, &size);
    left = (rank + size - 1) % size;
    right = (rank + 1) % size;
    most = mine[rank];
    if (rank == 0) {
        MPI_Send(&most, 1, MPI_INT, right, FIND, MPI_COMM_WORLD);
        MPI_Recv(&most, 1, MPI_INT, left, FIND, MPI_COMM_WORLD, MPI_STATUS_IGNORE);
        MPI_Send(&most, 1, MPI_INT, right, TELL, MPI_COMM_WORLD);
    } else {
        MPI_Recv(&found, 1, MPI_INT, left, FIND, MPI_COMM_WORLD, MPI_STATUS_IGNORE);
        if (found > most)
            most = found;
        MPI_Send(&most, 1, MPI_INT, right, FIND, MPI_COMM_WORLD);
        MPI_Recv(&most, 1, MPI_INT, left, TELL, MPI_COMM_WORLD, MPI_STATUS_IGNORE);
        if (right != 0)
            MPI_Send(&most, 1, MPI_INT, right, TELL, MPI_COMM_WORLD);
    }
    printf("rank %d knows %d\n", rank, most);
    MPI_Finalize();
    return 0;
}
