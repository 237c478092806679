/* Rank 0 hands over a row in four pieces, each as soon as it is ready, and then a second row with the same request.

   c/rvmc-cc -n 2 --link 0,1 -o pieces.image c/course/pieces.c */
#include <mpi.h>
#include <stdio.h>

enum { TAG = 1, ROWS = 2, PIECES = 4 };

static void give(MPI_Request *request, long *row)
{
    MPI_Psend_init(row, PIECES, 1, MPI_LONG, 1, TAG, MPI_COMM_WORLD, MPI_INFO_NULL, request);
    for (int y = 1; y <= ROWS; y++) {
        MPI_Start(request);
        for (int x = 0; x < PIECES; x++) {
            row[x] = 10 * y + x;
            MPI_Pready(x, *request);
        }
        MPI_Wait(request, MPI_STATUS_IGNORE);
    }
}

static void take(MPI_Request *request, long *row)
{
    MPI_Precv_init(row, PIECES, 1, MPI_LONG, 0, TAG, MPI_COMM_WORLD, MPI_INFO_NULL, request);
    for (int y = 1; y <= ROWS; y++) {
        MPI_Start(request);
        MPI_Wait(request, MPI_STATUS_IGNORE);
        printf("%ld %ld %ld %ld\n", row[0], row[1], row[2], row[3]);
    }
}

int main(int argc, char **argv)
{
    long row[PIECES];
    MPI_Request request;
    int rank;

    MPI_Init(&argc, &argv);
    MPI_Comm_rank(MPI_COMM_WORLD, &rank);
    if (rank == 0)
        give(&request, row);
    else
        take(&request, row);
    MPI_Request_free(&request);
    MPI_Finalize();
    return 0;
}
