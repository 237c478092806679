/* What MPI_COMM_WORLD tells about itself by its attributes.

   c/rvmc-cc -n 2 -o attributes_world.image c/programs/attributes_world.c && rvmc run < attributes_world.image */
#include <mpi.h>
#include <stdio.h>

static int *attribute(int key)
{
    int *value = NULL, found = 0;

    MPI_Comm_get_attr(MPI_COMM_WORLD, key, &value, &found);
    return found ? value : NULL;
}

int main(int argc, char *argv[])
{
    int rank, size, *tag, *io, *global, *universe, *last, tags[2] = {0, 32767}, got = 0;
    MPI_Status status;

    MPI_Init(&argc, &argv);
    MPI_Comm_rank(MPI_COMM_WORLD, &rank);
    MPI_Comm_size(MPI_COMM_WORLD, &size);

    tag = attribute(MPI_TAG_UB);
    printf("rank %d: the largest tag is %s\n", rank, tag && *tag >= 32767 ? "32767 or more" : "WRONG");
    io = attribute(MPI_IO);
    printf("rank %d: files %s\n", rank,
           !io                      ? "are unknown"
           : *io == MPI_ANY_SOURCE || *io == rank ? "are mine"
           : *io == MPI_PROC_NULL                 ? "are nobody's"
                                    : "are another's");
    global = attribute(MPI_WTIME_IS_GLOBAL);
    printf("rank %d: one clock for all: %s\n", rank, global && (*global == 0 || *global == 1) ? "told" : "WRONG");
    universe = attribute(MPI_UNIVERSE_SIZE);
    printf("rank %d: universe: %s\n", rank, !universe || *universe >= size ? "none, or large enough" : "WRONG");
    last = attribute(MPI_LASTUSEDCODE);
    printf("rank %d: last code: %s\n", rank, last && *last >= MPI_ERR_LASTCODE ? "MPI_ERR_LASTCODE or more" : "WRONG");
    printf("rank %d: MPI_KEYVAL_INVALID is %s\n", rank, MPI_KEYVAL_INVALID == MPI_TAG_UB ? "WRONG" : "no key");

    /* the largest tag that each MPI has, and the largest of this one */
    if (tag)
        tags[0] = *tag;
    for (int i = 0; i < 2; i++)
        if (rank == 0) {
            MPI_Send(&i, 1, MPI_INT, 1, tags[i], MPI_COMM_WORLD);
        } else if (rank == 1) {
            MPI_Recv(&got, 1, MPI_INT, 0, tags[i], MPI_COMM_WORLD, &status);
            printf("message %d by tag %d: %s\n", got, i, status.MPI_TAG == tags[i] ? "arrived" : "WRONG");
        }
    MPI_Finalize();
    return 0;
}
