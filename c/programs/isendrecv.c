/* MPI_Isendrecv and MPI_Isendrecv_replace: an exchange that goes on while the rank works.

   c/rvmc-cc -n 4 -o isendrecv.image c/programs/isendrecv.c && rvmc run < isendrecv.image */
#include <mpi.h>
#include <stdio.h>

int main(int argc, char *argv[])
{
    int rank, size, left, right, out, in = -1, both[3], work = 0;
    MPI_Request requests[2];

    MPI_Init(&argc, &argv);
    MPI_Comm_rank(MPI_COMM_WORLD, &rank);
    MPI_Comm_size(MPI_COMM_WORLD, &size);
    left = (rank + size - 1) % size;
    right = (rank + 1) % size;
    out = 100 + rank;
    for (int i = 0; i < 3; i++)
        both[i] = 10 * rank + i;
    MPI_Isendrecv(&out, 1, MPI_INT, right, 1, &in, 1, MPI_INT, left, 1, MPI_COMM_WORLD, &requests[0]);
    MPI_Isendrecv_replace(both, 3, MPI_INT, left, 2, right, 2, MPI_COMM_WORLD, &requests[1]);
    for (int i = 0; i < 100; i++)
        work += i;
    MPI_Waitall(2, requests, MPI_STATUSES_IGNORE);
    printf("%d from the left; %d %d %d from the right; work %d\n", in, both[0], both[1], both[2], work);

    /* at the ends of a line */
    if (rank == 0)
        left = MPI_PROC_NULL;
    if (rank == size - 1)
        right = MPI_PROC_NULL;
    in = -1;
    MPI_Isendrecv(&out, 1, MPI_INT, right, 3, &in, 1, MPI_INT, left, 3, MPI_COMM_WORLD, &requests[0]);
    MPI_Wait(&requests[0], MPI_STATUS_IGNORE);
    printf("in a line: %d, request %s\n", in, requests[0] == MPI_REQUEST_NULL ? "null" : "WRONG");
    MPI_Finalize();
    return 0;
}
