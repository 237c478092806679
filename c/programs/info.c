/* Info objects: keys and their values, put in, overwritten, listed, duplicated and deleted; and what is left behind a value.

   c/rvmc-cc -n 1 -o info.image c/programs/info.c && rvmc run < info.image */
#include <mpi.h>
#include <stdio.h>
#include <string.h>

static void list(const char *name, MPI_Info info)
{
    int keys, length, found;
    char key[MPI_MAX_INFO_KEY], value[MPI_MAX_INFO_VAL];

    MPI_Info_get_nkeys(info, &keys);
    printf("%s has %d keys\n", name, keys);
    for (int i = 0; i < keys; i++) {
        MPI_Info_get_nthkey(info, i, key);
        MPI_Info_get_valuelen(info, key, &length, &found);
        MPI_Info_get(info, key, MPI_MAX_INFO_VAL - 1, value, &found);
        printf("  %s = '%s' (%d, %d)\n", key, value, length, found);
    }
}

int main(int argc, char *argv[])
{
    int found, length;
    char value[MPI_MAX_INFO_VAL];
    MPI_Info info, copy;

    MPI_Init(&argc, &argv);
    MPI_Info_create(&info);
    list("new", info);
    MPI_Info_set(info, "host", "node7");
    MPI_Info_set(info, "wdir", "/tmp");
    MPI_Info_set(info, "a longer key with blanks", "and a value of several words");
    list("filled", info);
    MPI_Info_set(info, "host", "node12");
    MPI_Info_dup(info, &copy);
    MPI_Info_delete(info, "wdir");
    list("changed", info);
    list("its copy", copy);

    MPI_Info_get(info, "wdir", MPI_MAX_INFO_VAL - 1, value, &found);
    printf("deleted: found %d\n", found);
    MPI_Info_get_valuelen(info, "wdir", &length, &found);
    printf("deleted: its length found %d\n", found);
    strcpy(value, "all of this was here before");
    MPI_Info_get(info, "host", 20, value, &found);
    printf("behind the value: '%s'\n", value + strlen(value) + 1);
    length = sizeof(value);
    MPI_Info_get_string(info, "host", &length, value, &found);
    printf("as a string: '%s' needs %d, found %d\n", value, length, found);
    length = 3;
    MPI_Info_get_string(info, "host", &length, value, &found);
    printf("in 3 bytes: '%s' needs %d, found %d\n", value, length, found);
    MPI_Info_free(&info);
    MPI_Info_free(&copy);
    printf("freed: %s\n", info == MPI_INFO_NULL && copy == MPI_INFO_NULL ? "null" : "WRONG");
    MPI_Finalize();
    return 0;
}
