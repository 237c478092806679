/* Each rank keeps a log, which it doesn't close, and rank 0 the settings. */
#include <mpi.h>
#include <stdio.h>

int main(int argc, char *argv[])
{
    int rank;
    FILE *log, *settings;

    MPI_Init(&argc, &argv);
    MPI_Comm_rank(MPI_COMM_WORLD, &rank);
    log = fopen("run.log", "a");
    fprintf(log, "rank %d starts\n", rank);
    if (rank == 0) {
        settings = fopen("settings/run.ini", "w");
        fprintf(settings, "steps=10");
        fclose(settings);
    }
    fprintf(log, "rank %d ends\n", rank);
    printf("no end of the line, rank %d", rank);
    MPI_Finalize();
    return 0;
}
