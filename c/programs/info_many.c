/* Many keys, long values, and info objects where calls take them: hints that are ignored do no harm.

   c/rvmc-cc -n 2 -o info_many.image c/programs/info_many.c && rvmc run < info_many.image */
#include <mpi.h>
#include <stdio.h>
#include <string.h>

#define KEYS 12

int main(int argc, char *argv[])
{
    int rank, keys, found, length, wrong = 0;
    char key[32], value[300], got[300], *memory;
    MPI_Info info, used;

    MPI_Init(&argc, &argv);
    MPI_Comm_rank(MPI_COMM_WORLD, &rank);
    MPI_Info_create(&info);
    for (int i = 0; i < KEYS; i++) {
        snprintf(key, sizeof(key), "key %d", i);
        memset(value, 'a' + i % 26, sizeof(value));
        value[i * 7] = '\0';
        if (i > 0)
            MPI_Info_set(info, key, value);
    }
    for (int i = 1; i < KEYS; i += 3) {
        snprintf(key, sizeof(key), "key %d", i);
        MPI_Info_delete(info, key);
    }
    MPI_Info_get_nkeys(info, &keys);
    printf("%d keys are left\n", keys);
    for (int i = 0; i < KEYS; i++) {
        snprintf(key, sizeof(key), "key %d", i);
        memset(got, 0, sizeof(got));
        length = -1;
        MPI_Info_get_valuelen(info, key, &length, &found);
        if (found != (i > 0 && i % 3 != 1))
            wrong++;
        if (found) {
            MPI_Info_get(info, key, sizeof(got) - 1, got, &found);
            wrong += length != i * 7 || (int)strlen(got) != length || got[0] != 'a' + i % 26;
        }
    }
    printf("%d wrong\n", wrong);

    MPI_Alloc_mem(100, info, &memory);
    memset(memory, rank, 100);
    MPI_Free_mem(memory);
    MPI_Comm_set_info(MPI_COMM_WORLD, info);
    MPI_Comm_get_info(MPI_COMM_WORLD, &used);
    MPI_Info_get_nkeys(used, &keys);
    printf("the communicator's: %s\n", keys >= 0 && used != info ? "an object of its own" : "WRONG");
    MPI_Info_free(&used);
    MPI_Info_free(&info);
    MPI_Finalize();
    return 0;
}
