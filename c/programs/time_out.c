/* Loops that end by the clock: one that waits for a message with a limit of time, in vain, and one that finds it in time.

   c/rvmc-cc -n 2 -o time_out.image c/programs/time_out.c && rvmc run < time_out.image */
#include <mpi.h>
#include <stdio.h>

int main(int argc, char *argv[])
{
    int rank, number = 0, flag = 0;
    double start;
    MPI_Request request;

    MPI_Init(&argc, &argv);
    MPI_Comm_rank(MPI_COMM_WORLD, &rank);
    if (rank == 1) {
        MPI_Irecv(&number, 1, MPI_INT, 0, 0, MPI_COMM_WORLD, &request);
        start = MPI_Wtime();
        while (!flag && MPI_Wtime() - start < 0.25)
            MPI_Test(&request, &flag, MPI_STATUS_IGNORE);
        printf("%s\n", flag ? "WRONG: nobody has sent" : "no message in a quarter of a second");
    }
    start = MPI_Wtime();
    while (MPI_Wtime() < start + 0.01)
        ;
    printf("rank %d has waited\n", rank);
    MPI_Barrier(MPI_COMM_WORLD);
    if (rank == 0) {
        number = 17;
        MPI_Send(&number, 1, MPI_INT, 1, 0, MPI_COMM_WORLD);
    } else {
        MPI_Wait(&request, MPI_STATUS_IGNORE);
        printf("and then %d\n", number);
    }
    MPI_Finalize();
    return 0;
}
