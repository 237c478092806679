/* Rank 0 of each pair sends behind a collective what rank 1 receives before it, but with RIGHT, where it receives behind it too. */
#include <mpi.h>
#include <stdio.h>

static void share(int kind, MPI_Comm c)
{
    int mine = 1, all[2] = {0, 0};
    MPI_Request request = MPI_REQUEST_NULL;

    switch (kind) {
    case 0: MPI_Scan(&mine, all, 1, MPI_INT, MPI_SUM, c); break;
    case 1: MPI_Exscan(&mine, all, 1, MPI_INT, MPI_SUM, c); break;
    case 2: MPI_Bcast(&mine, 1, MPI_INT, 0, c); break;
    case 3: MPI_Gather(&mine, 1, MPI_INT, all, 1, MPI_INT, 1, c); break;
    case 4: MPI_Ibcast(&mine, 1, MPI_INT, 0, c, &request); break;
    case 5: MPI_Barrier(c); break;
    case 6: MPI_Reduce(&mine, all, 1, MPI_INT, MPI_SUM, 1, c); break;
    }
    MPI_Wait(&request, MPI_STATUS_IGNORE);
}

int main(void)
{
    int rank, me, sent = 42, value = 0;
    MPI_Comm c = MPI_COMM_WORLD;

    MPI_Init(NULL, NULL);
    MPI_Comm_rank(MPI_COMM_WORLD, &rank);
#ifdef HALVES
    MPI_Comm_split(MPI_COMM_WORLD, rank / 2, rank, &c);
#endif
    MPI_Comm_rank(c, &me);
#ifndef RIGHT
    if (me == 1)
        MPI_Recv(&value, 1, MPI_INT, 0, 7, c, MPI_STATUS_IGNORE);
#endif
    share(KIND, c);
    if (me == 0)
        MPI_Send(&sent, 1, MPI_INT, 1, 7, c);
#ifdef RIGHT
    if (me == 1)
        MPI_Recv(&value, 1, MPI_INT, 0, 7, c, MPI_STATUS_IGNORE);
#endif
    if (me == 1)
        printf("got %d\n", value);
#ifdef HALVES
    MPI_Comm_free(&c);
#endif
    MPI_Finalize();
    return 0;
}
