/* MPI_COMM_SELF: a rank alone, with messages to itself and collectives, and a communicator made of it.

   c/rvmc-cc -n 3 -o self.image c/programs/self.c && rvmc run < self.image */
#include <mpi.h>
#include <stdio.h>
#include <string.h>

int main(int argc, char *argv[])
{
    int world, rank, size, value, got = 0, sum, length, answer;
    char name[MPI_MAX_OBJECT_NAME];
    MPI_Comm dup, same;
    MPI_Request request;
    MPI_Status status;

    MPI_Init(&argc, &argv);
    MPI_Comm_rank(MPI_COMM_WORLD, &world);
    MPI_Comm_rank(MPI_COMM_SELF, &rank);
    MPI_Comm_size(MPI_COMM_SELF, &size);
    MPI_Comm_get_name(MPI_COMM_SELF, name, &length);
    printf("%s: %d of %d\n", name, rank, size);
    value = 10 + world;
    MPI_Irecv(&got, 1, MPI_INT, MPI_ANY_SOURCE, MPI_ANY_TAG, MPI_COMM_SELF, &request);
    MPI_Send(&value, 1, MPI_INT, 0, 3, MPI_COMM_SELF);
    MPI_Wait(&request, &status);
    printf("%d from %d by tag %d\n", got, status.MPI_SOURCE, status.MPI_TAG);
    MPI_Allreduce(&value, &sum, 1, MPI_INT, MPI_SUM, MPI_COMM_SELF);
    MPI_Bcast(&value, 1, MPI_INT, 0, MPI_COMM_SELF);
    MPI_Barrier(MPI_COMM_SELF);
    printf("sum %d, value %d\n", sum, value);

    MPI_Comm_dup(MPI_COMM_SELF, &dup);
    MPI_Comm_compare(MPI_COMM_SELF, dup, &answer);
    printf("dup is congruent: %d\n", answer == MPI_CONGRUENT);
    MPI_Comm_compare(MPI_COMM_SELF, MPI_COMM_WORLD, &answer);
    printf("the world is unequal: %d\n", answer == MPI_UNEQUAL);
    MPI_Sendrecv(&value, 1, MPI_INT, 0, 1, &got, 1, MPI_INT, 0, 1, dup, &status);
    printf("%d from %d\n", got, status.MPI_SOURCE);
    MPI_Comm_split(dup, 0, 0, &same);
    MPI_Comm_size(same, &size);
    MPI_Comm_get_name(same, name, &length);
    printf("split: %d, name '%s'\n", size, name);
    MPI_Comm_free(&same);
    MPI_Comm_free(&dup);
    MPI_Finalize();
    return 0;
}
