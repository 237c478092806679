/* Attributes under the names of MPI-1, as old programs have them: MPI_Keyval_create, MPI_Attr_put and their kin.

   c/rvmc-cc -n 1 -o attributes_old.image c/programs/attributes_old.c && rvmc run < attributes_old.image */
#include <mpi.h>
#include <stdio.h>

static int forget(MPI_Comm comm, int key, void *value, void *extra)
{
    (void)comm;
    (void)key;
    printf("deleted %ld, extra %s\n", (long)(MPI_Aint)value, extra ? (char *)extra : "none");
    return MPI_SUCCESS;
}

int main(int argc, char *argv[])
{
    int key, found, *largest;
    void *value;

    MPI_Init(&argc, &argv);
    MPI_Attr_get(MPI_COMM_WORLD, MPI_TAG_UB, &largest, &found);
    printf("the largest tag: %s\n", found && *largest >= 32767 ? "found" : "WRONG");
    MPI_Keyval_create(MPI_NULL_COPY_FN, forget, &key, "kept");
    MPI_Attr_get(MPI_COMM_WORLD, key, &value, &found);
    printf("at first: %s\n", found ? "WRONG" : "none");
    for (long number = 1; number <= 3; number++) {
        MPI_Attr_put(MPI_COMM_WORLD, key, (void *)(MPI_Aint)number);
        MPI_Attr_get(MPI_COMM_WORLD, key, &value, &found);
        printf("put %ld, got %ld\n", number, found ? (long)(MPI_Aint)value : -1L);
    }
    MPI_Attr_delete(MPI_COMM_WORLD, key);
    MPI_Attr_get(MPI_COMM_WORLD, key, &value, &found);
    printf("at last: %s\n", found ? "WRONG" : "none");
    MPI_Keyval_free(&key);
    printf("the key: %s\n", key == MPI_KEYVAL_INVALID ? "invalid" : "WRONG");
    MPI_Finalize();
    return 0;
}
