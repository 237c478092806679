/* Attributes of the program's own on a communicator: stored, overwritten, deleted, each with the functions that MPI calls.

   c/rvmc-cc -n 2 -o attributes_own.image c/programs/attributes_own.c && rvmc run < attributes_own.image */
#include <mpi.h>
#include <stdio.h>

static int deleted;

static int forget(MPI_Comm comm, int key, void *value, void *extra)
{
    (void)key;
    deleted++;
    printf("deleted %d of %s, extra %d\n", *(int *)value, comm == MPI_COMM_WORLD ? "the world" : "another",
           *(int *)extra);
    return MPI_SUCCESS;
}

/* refuses the first time */
static int refuse(MPI_Comm comm, int key, void *value, void *extra)
{
    static int times;

    (void)comm;
    (void)key;
    (void)value;
    (void)extra;
    return times++ == 0 ? MPI_ERR_OTHER : MPI_SUCCESS;
}

static void show(const char *when, int key)
{
    int *value = NULL, found = -1;

    MPI_Comm_get_attr(MPI_COMM_WORLD, key, &value, &found);
    if (found)
        printf("%s: %d\n", when, *value);
    else
        printf("%s: none\n", when);
}

int main(int argc, char *argv[])
{
    int rank, key, other, stubborn, extra = 5, first = 11, second = 22, code;

    MPI_Init(&argc, &argv);
    MPI_Comm_rank(MPI_COMM_WORLD, &rank);
    MPI_Comm_create_keyval(MPI_COMM_NULL_COPY_FN, forget, &key, &extra);
    MPI_Comm_create_keyval(MPI_COMM_DUP_FN, MPI_COMM_NULL_DELETE_FN, &other, NULL);
    printf("two keys: %s\n", key == other || key == MPI_KEYVAL_INVALID ? "WRONG" : "different");
    show("at first", key);
    first += rank;
    MPI_Comm_set_attr(MPI_COMM_WORLD, key, &first);
    show("set", key);
    show("the other", other);
    MPI_Comm_set_attr(MPI_COMM_WORLD, key, &second);
    show("overwritten", key);
    MPI_Comm_set_attr(MPI_COMM_WORLD, other, &first);
    show("the other, set", other);
    MPI_Comm_delete_attr(MPI_COMM_WORLD, key);
    show("deleted", key);
    MPI_Comm_delete_attr(MPI_COMM_WORLD, other);
    show("the other, deleted", other);
    printf("%d deletions told\n", deleted);

    /* a function that refuses: the attribute stays */
    MPI_Comm_set_errhandler(MPI_COMM_WORLD, MPI_ERRORS_RETURN);
    MPI_Comm_create_keyval(MPI_COMM_NULL_COPY_FN, refuse, &stubborn, NULL);
    MPI_Comm_set_attr(MPI_COMM_WORLD, stubborn, &second);
    code = MPI_Comm_delete_attr(MPI_COMM_WORLD, stubborn);
    printf("refused: %s\n", code == MPI_SUCCESS ? "WRONG" : "an error");
    show("stubborn", stubborn);
    MPI_Comm_delete_attr(MPI_COMM_WORLD, stubborn);
    show("no more", stubborn);

    MPI_Comm_free_keyval(&key);
    MPI_Comm_free_keyval(&other);
    printf("freed: %s\n", key == MPI_KEYVAL_INVALID && other == MPI_KEYVAL_INVALID ? "invalid" : "WRONG");
    MPI_Finalize();
    return 0;
}
