/* What a status tells, and what a program writes into one: counts, elements, whether it was cancelled.

   c/rvmc-cc -n 2 -o elements.image c/programs/elements.c && rvmc run < elements.image */
#include <mpi.h>
#include <stdio.h>

static void show(const char *what, const MPI_Status *status, MPI_Datatype type)
{
    int count, elements;
    MPI_Count large;

    MPI_Get_count(status, type, &count);
    MPI_Get_elements(status, type, &elements);
    MPI_Get_elements_x(status, type, &large);
    if (count == MPI_UNDEFINED)
        printf("%s: no whole count\n", what);
    else
        printf("%s: %d, elements %d and %ld\n", what, count, elements, (long)large);
}

int main(int argc, char *argv[])
{
    int rank, cancelled;
    char text[16] = "thirteen char";
    MPI_Status status;

    MPI_Init(&argc, &argv);
    MPI_Comm_rank(MPI_COMM_WORLD, &rank);
    if (rank == 0) {
        MPI_Send(text, 13, MPI_CHAR, 1, 0, MPI_COMM_WORLD);
        MPI_Send(text, 12, MPI_CHAR, 1, 1, MPI_COMM_WORLD);
        MPI_Send(text, 0, MPI_CHAR, 1, 2, MPI_COMM_WORLD);
    } else {
        MPI_Recv(text, 16, MPI_CHAR, 0, 0, MPI_COMM_WORLD, &status);
        show("13 bytes as chars", &status, MPI_CHAR);
        show("13 bytes as ints", &status, MPI_INT);
        MPI_Recv(text, 16, MPI_CHAR, 0, 1, MPI_COMM_WORLD, &status);
        show("12 bytes as ints", &status, MPI_INT);
        show("12 bytes as doubles", &status, MPI_DOUBLE);
        MPI_Recv(text, 16, MPI_CHAR, 0, 2, MPI_COMM_WORLD, &status);
        show("0 bytes as doubles", &status, MPI_DOUBLE);

        MPI_Status_set_elements(&status, MPI_INT, 6);
        show("6 ints", &status, MPI_INT);
        show("6 ints as doubles", &status, MPI_DOUBLE);
        MPI_Status_set_elements_x(&status, MPI_DOUBLE, 5);
        show("5 doubles", &status, MPI_DOUBLE);
        show("5 doubles as bytes", &status, MPI_BYTE);
        MPI_Status_set_cancelled(&status, 1);
        MPI_Test_cancelled(&status, &cancelled);
        printf("cancelled: %s\n", cancelled ? "yes" : "no");
        MPI_Status_set_cancelled(&status, 0);
        MPI_Test_cancelled(&status, &cancelled);
        printf("cancelled: %s\n", cancelled ? "yes" : "no");
        status.MPI_SOURCE = 5;
        status.MPI_TAG = 6;
        status.MPI_ERROR = MPI_ERR_TAG;
        show("and still", &status, MPI_DOUBLE);
        printf("%d %d %s\n", status.MPI_SOURCE, status.MPI_TAG, status.MPI_ERROR == MPI_ERR_TAG ? "kept" : "WRONG");
    }
    MPI_Finalize();
    return 0;
}
