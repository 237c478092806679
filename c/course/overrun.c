/* Wrong: rank 0 counts the rows that it received, and prints an impossible count.

   c/rvmc-cc -n 2 -O0 -o overrun.image c/course/overrun.c */
#include <mpi.h>
#include <stdio.h>

enum { TAG = 1, ROWS = 3, WIDTH = 4 };

struct {
    int row[3];
    int count;
} board;

int main(int argc, char **argv)
{
    int rank;

    MPI_Init(&argc, &argv);
    MPI_Comm_rank(MPI_COMM_WORLD, &rank);
    for (int y = 1; y <= ROWS; y++) {
        if (rank == 0) {
            MPI_Recv(board.row, WIDTH, MPI_INT, 1, TAG, MPI_COMM_WORLD, MPI_STATUS_IGNORE);
            board.count++;
        } else {
            int row[WIDTH] = {y, 10 * y, 100 * y, 1000 * y};

            MPI_Send(row, WIDTH, MPI_INT, 0, TAG, MPI_COMM_WORLD);
        }
    }
    if (rank == 0)
        printf("%d rows\n", board.count);
    MPI_Finalize();
    return 0;
}
