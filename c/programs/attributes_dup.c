/* Attributes of communicators that are copied and deleted: by functions that say so, in MPI_Comm_dup and MPI_Comm_free; what
   becomes of names and error handlers.

   c/rvmc-cc -n 2 -o attributes_dup.image c/programs/attributes_dup.c && rvmc run < attributes_dup.image */
#include <mpi.h>
#include <stdio.h>

static int copy(MPI_Comm comm, int key, void *extra, void *value, void *result, int *flag)
{
    (void)comm;
    (void)key;
    printf("copied %ld\n", (long)value);
    *(long *)result = (long)value + *(int *)extra;
    *flag = (long)value < 100;
    return MPI_SUCCESS;
}

static int gone(MPI_Comm comm, int key, void *value, void *extra)
{
    (void)comm;
    (void)key;
    (void)extra;
    printf("deleted %ld\n", (long)value);
    return MPI_SUCCESS;
}

static int refuse(MPI_Comm comm, int key, void *extra, void *value, void *result, int *flag)
{
    (void)comm;
    (void)key;
    (void)extra;
    (void)value;
    (void)result;
    *flag = 0;
    return MPI_ERR_OTHER;
}

static void show(const char *name, MPI_Comm comm, int key)
{
    long value;
    int flag;

    MPI_Comm_get_attr(comm, key, &value, &flag);
    printf("%s: %ld\n", name, flag ? value : -1);
}

static void names(MPI_Comm comm)
{
    MPI_Comm dup;
    char name[MPI_MAX_OBJECT_NAME];
    int length;

    MPI_Comm_set_name(comm, "mine");
    MPI_Comm_dup(comm, &dup);
    MPI_Comm_get_name(comm, name, &length);
    printf("name '%s'\n", name);
    MPI_Comm_get_name(dup, name, &length);
    printf("of the copy '%s'\n", name);
    MPI_Comm_free(&dup);
}

static void handlers(MPI_Comm comm)
{
    MPI_Comm dup;
    MPI_Errhandler handler;
    int value, error;

    MPI_Comm_set_errhandler(comm, MPI_ERRORS_RETURN);
    MPI_Comm_split(comm, 0, 0, &dup);
    MPI_Comm_get_errhandler(dup, &handler);
    error = MPI_Send(&value, 1, MPI_INT, 77, 0, dup);
    MPI_Error_class(error, &error);
    printf("returns: %d, rank: %d\n", handler == MPI_ERRORS_RETURN, error == MPI_ERR_RANK);
    MPI_Comm_free(&dup);
}

int main(int argc, char *argv[])
{
    int key, plain, none, wrong, extra = 5, error;
    MPI_Comm one, two, three;

    MPI_Init(&argc, &argv);
    MPI_Comm_create_keyval(copy, gone, &key, &extra);
    MPI_Comm_create_keyval(MPI_COMM_DUP_FN, MPI_COMM_NULL_DELETE_FN, &plain, NULL);
    MPI_Comm_create_keyval(MPI_COMM_NULL_COPY_FN, MPI_COMM_NULL_DELETE_FN, &none, NULL);
    MPI_Comm_dup(MPI_COMM_WORLD, &one);
    MPI_Comm_set_attr(one, key, (void *)97L);
    MPI_Comm_set_attr(one, plain, (void *)1L);
    MPI_Comm_set_attr(one, none, (void *)2L);
    MPI_Comm_dup(one, &two);
    show("two", two, key);
    show("plain", two, plain);
    show("none", two, none);
    MPI_Comm_dup(two, &three);
    show("three", three, key);
    MPI_Comm_free(&three);
    MPI_Comm_free(&two);
    MPI_Comm_split(one, 0, 0, &two);
    show("split", two, key);
    MPI_Comm_free(&two);
    MPI_Comm_delete_attr(one, key);
    names(one);
    handlers(one);
    MPI_Comm_create_keyval(refuse, MPI_COMM_NULL_DELETE_FN, &wrong, NULL);
    MPI_Comm_set_attr(one, wrong, (void *)3L);
    error = MPI_Comm_dup(one, &two);
    printf("refused: %d\n", error != MPI_SUCCESS);
    MPI_Comm_delete_attr(one, wrong);
    MPI_Comm_free(&one);
    MPI_Comm_free_keyval(&key);
    MPI_Comm_free_keyval(&plain);
    MPI_Comm_free_keyval(&none);
    MPI_Comm_free_keyval(&wrong);
    MPI_Finalize();
    return 0;
}
