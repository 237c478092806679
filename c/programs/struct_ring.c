/* A ring with messages that are structs: each rank signs the letter and hands it on. All ranks are alike, so a struct can
   travel as its bytes.

   c/rvmc-cc -n 5 -o struct_ring.image c/programs/struct_ring.c && rvmc run < struct_ring.image */
#include <mpi.h>
#include <stdio.h>
#include <string.h>

#define ROUNDS 2

struct letter {
    int hops;
    char route[32];
    double weight;
    struct {
        short first, last;
    } sender;
};

static void sign(struct letter *letter, int rank)
{
    size_t length = strlen(letter->route);

    letter->hops++;
    letter->route[length] = (char)('A' + rank);
    letter->route[length + 1] = '\0';
    letter->weight *= 1.5;
    if (letter->hops == 1)
        letter->sender.first = (short)rank;
    letter->sender.last = (short)rank;
}

int main(int argc, char *argv[])
{
    int rank, size, count;
    struct letter letter;
    MPI_Status status;

    MPI_Init(&argc, &argv);
    MPI_Comm_rank(MPI_COMM_WORLD, &rank);
    MPI_Comm_size(MPI_COMM_WORLD, &size);
    memset(&letter, 0, sizeof(letter));
    letter.weight = 1.0;
    for (int round = 0; round < ROUNDS; round++) {
        if (rank == 0) {
            sign(&letter, rank);
            MPI_Send(&letter, sizeof(letter), MPI_BYTE, (rank + 1) % size, round, MPI_COMM_WORLD);
        }
        MPI_Recv(&letter, sizeof(letter), MPI_BYTE, (rank + size - 1) % size, round, MPI_COMM_WORLD, &status);
        MPI_Get_count(&status, MPI_BYTE, &count);
        printf("round %d: rank %d has %s from rank %d: %s bytes, %d hops, weight %g, from %d to %d\n", round, rank,
               letter.route, status.MPI_SOURCE, count == (int)sizeof(letter) ? "all its" : "WRONG", letter.hops,
               letter.weight, letter.sender.first, letter.sender.last);
        if (rank != 0) {
            sign(&letter, rank);
            MPI_Send(&letter, sizeof(letter), MPI_BYTE, (rank + 1) % size, round, MPI_COMM_WORLD);
        }
    }
    MPI_Finalize();
    return 0;
}
