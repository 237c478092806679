/* Columns of a matrix, sent and received in each way that there is; also where the receiver takes plain numbers.

   c/rvmc-cc -n 2 -o type_transfers.image c/programs/type_transfers.c && rvmc run < type_transfers.image */
#include <mpi.h>
#include <stdio.h>
#include <string.h>

#define ROWS 3
#define COLUMNS 4

static int matrix[ROWS][COLUMNS], rank;
static MPI_Datatype column;
static char room[4 * (MPI_BSEND_OVERHEAD + sizeof matrix)];

static void fill(void)
{
    for (int i = 0; i < ROWS; i++)
        for (int j = 0; j < COLUMNS; j++)
            matrix[i][j] = rank ? 0 : 10 * i + j;
}

static void show(const char *how, MPI_Status *status)
{
    int count, elements, ints;

    MPI_Get_count(status, column, &count);
    MPI_Get_elements(status, column, &elements);
    MPI_Get_count(status, MPI_INT, &ints);
    printf("%s: tag %d, count %d, elements %d, ints %d:", how, status->MPI_TAG, count, elements, ints);
    for (int i = 0; i < ROWS; i++)
        for (int j = 0; j < COLUMNS; j++)
            printf(" %d", matrix[i][j]);
    printf("\n");
    memset(matrix, 0, sizeof matrix);
}

/* Rank 0 sends by tags 0 and up; a receive is posted before a ready send. */
static void send_all(void)
{
    MPI_Request requests[8];

    MPI_Send(&matrix[0][1], 1, column, 1, 0, MPI_COMM_WORLD);
    MPI_Ssend(&matrix[0][0], 2, column, 1, 1, MPI_COMM_WORLD);
    MPI_Buffer_attach(room, sizeof room);
    MPI_Bsend(&matrix[0][2], 1, column, 1, 2, MPI_COMM_WORLD);
    MPI_Recv(0, 0, MPI_INT, 1, 9, MPI_COMM_WORLD, MPI_STATUS_IGNORE);
    MPI_Rsend(&matrix[0][3], 1, column, 1, 3, MPI_COMM_WORLD);
    MPI_Isend(&matrix[0][0], 1, column, 1, 4, MPI_COMM_WORLD, &requests[0]);
    MPI_Issend(&matrix[0][0], 3, column, 1, 5, MPI_COMM_WORLD, &requests[1]);
    MPI_Ibsend(&matrix[0][0], 1, column, 1, 6, MPI_COMM_WORLD, &requests[2]);
    MPI_Waitall(3, requests, MPI_STATUSES_IGNORE);
    MPI_Send_init(&matrix[0][3], 1, column, 1, 7, MPI_COMM_WORLD, &requests[0]);
    MPI_Ssend_init(&matrix[0][2], 1, column, 1, 8, MPI_COMM_WORLD, &requests[1]);
    for (int i = 0; i < 2; i++) {
        MPI_Startall(2, requests);
        MPI_Waitall(2, requests, MPI_STATUSES_IGNORE);
        matrix[1][3] = matrix[1][2] = 77;
    }
    MPI_Request_free(&requests[0]);
    MPI_Request_free(&requests[1]);
    MPI_Buffer_detach(&(void *){0}, &(int){0});
}

static void receive_all(void)
{
    MPI_Request requests[3];
    MPI_Status status, statuses[3];
    MPI_Message message;
    int flag, index;

    MPI_Recv(matrix, 1, column, 0, 0, MPI_COMM_WORLD, &status);
    show("Recv", &status);
    MPI_Recv(matrix, ROWS * COLUMNS, MPI_INT, 0, 1, MPI_COMM_WORLD, &status);
    show("Recv of ints", &status);
    MPI_Irecv(&matrix[0][2], 1, column, 0, 3, MPI_COMM_WORLD, &requests[0]);
    MPI_Send(0, 0, MPI_INT, 0, 9, MPI_COMM_WORLD);
    MPI_Wait(&requests[0], &status);
    show("Irecv", &status);
    MPI_Mprobe(0, 2, MPI_COMM_WORLD, &message, &status);
    MPI_Mrecv(&matrix[0][1], 1, column, &message, &status);
    show("Mrecv", &status);
    MPI_Mprobe(0, 4, MPI_COMM_WORLD, &message, &status);
    MPI_Imrecv(&matrix[0][3], 1, column, &message, &requests[0]);
    do
        MPI_Test(&requests[0], &flag, &status);
    while (!flag);
    show("Imrecv", &status);
    MPI_Probe(0, 5, MPI_COMM_WORLD, &status);
    show("Probe", &status);
    MPI_Irecv(matrix, 4, column, 0, 5, MPI_COMM_WORLD, &requests[0]);
    MPI_Waitany(1, requests, &index, &status);
    show("Waitany", &status);
    MPI_Recv(matrix, 2, column, 0, 6, MPI_COMM_WORLD, &status);
    show("Recv into more", &status);
    MPI_Recv_init(matrix, 1, column, 0, 7, MPI_COMM_WORLD, &requests[0]);
    MPI_Recv_init(&matrix[0][1], 1, column, 0, 8, MPI_COMM_WORLD, &requests[1]);
    for (int i = 0; i < 2; i++) {
        MPI_Startall(2, requests);
        if (i == 0)
            MPI_Waitall(2, requests, statuses);
        else
            do
                MPI_Testall(2, requests, &flag, statuses);
            while (!flag);
        show("Recv_init", &statuses[1]);
    }
    MPI_Request_free(&requests[0]);
    MPI_Request_free(&requests[1]);
}

/* Each gives the other two columns, and gets some of numbers. */
static void exchange(void)
{
    int numbers[ROWS + 1] = {0};
    MPI_Status status;
    MPI_Request request;

    rank = !rank;
    fill();
    rank = !rank;
    matrix[0][0] += 100 * rank;
    MPI_Sendrecv(matrix, 1, column, !rank, 0, numbers, ROWS + 1, MPI_INT, !rank, 0, MPI_COMM_WORLD, &status);
    printf("got %d %d %d %d\n", numbers[0], numbers[1], numbers[2], numbers[3]);
    MPI_Sendrecv(numbers, ROWS, MPI_INT, !rank, 1, &matrix[0][3], 1, column, !rank, 1, MPI_COMM_WORLD, &status);
    show("Sendrecv", &status);
    matrix[1][1] = 5 + rank;
    MPI_Sendrecv_replace(&matrix[0][1], 1, column, !rank, 2, !rank, 2, MPI_COMM_WORLD, &status);
    show("Sendrecv_replace", &status);
    MPI_Sendrecv(matrix, 1, column, MPI_PROC_NULL, 3, &matrix[0][1], 1, column, MPI_PROC_NULL, 3, MPI_COMM_WORLD, &status);
    printf("null process: %d\n", status.MPI_SOURCE == MPI_PROC_NULL);
    matrix[2][0] = 7 + rank;
    MPI_Isend(matrix, 1, column, rank, 4, MPI_COMM_WORLD, &request);
    MPI_Recv(&matrix[0][2], 1, column, rank, 4, MPI_COMM_WORLD, &status);
    MPI_Wait(&request, MPI_STATUS_IGNORE);
    show("to itself", &status);
}

int main(int argc, char *argv[])
{
    MPI_Datatype vector;

    MPI_Init(&argc, &argv);
    MPI_Comm_rank(MPI_COMM_WORLD, &rank);
    MPI_Type_vector(ROWS, 1, COLUMNS, MPI_INT, &vector);
    MPI_Type_create_resized(vector, 0, sizeof(int), &column);
    MPI_Type_free(&vector);
    MPI_Type_commit(&column);
    fill();
    if (rank == 0)
        send_all();
    else
        receive_all();
    exchange();
    MPI_Type_free(&column);
    MPI_Finalize();
    return 0;
}
