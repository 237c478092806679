/* What may be asked before MPI_Init and behind MPI_Finalize, the versions, and threads.

   c/rvmc-cc -n 2 -o begin_and_end.image c/programs/begin_and_end.c && rvmc run < begin_and_end.image */
#include <mpi.h>
#include <stdio.h>
#include <string.h>

static void state(const char *when)
{
    int begun = -1, over = -1;

    MPI_Initialized(&begun);
    MPI_Finalized(&over);
    printf("%s: initialized %d, finalized %d\n", when, begun, over);
}

int main(int argc, char *argv[])
{
    int version = 0, subversion = -1, length = -1, provided = -1, level = -1, is_main = -1, rank;
    char text[MPI_MAX_LIBRARY_VERSION_STRING];

    state("before");
    MPI_Get_version(&version, &subversion);
    printf("version: %s\n", version == MPI_VERSION && subversion == MPI_SUBVERSION && version >= 3 ? "known" : "WRONG");
    MPI_Get_library_version(text, &length);
    printf("the library's: %s\n", length > 0 && length == (int)strlen(text) ? "told" : "WRONG");
    MPI_Init_thread(&argc, &argv, MPI_THREAD_FUNNELED, &provided);
    state("between");
    MPI_Comm_rank(MPI_COMM_WORLD, &rank);
    printf("threads: %s\n", provided >= MPI_THREAD_SINGLE && provided <= MPI_THREAD_MULTIPLE ? "known" : "WRONG");
    MPI_Query_thread(&level);
    printf("asked again: %s\n", level == provided ? "the same" : "WRONG");
    MPI_Is_thread_main(&is_main);
    printf("the main thread: %d\n", is_main);
    printf("levels: %s\n",
           MPI_THREAD_SINGLE < MPI_THREAD_FUNNELED && MPI_THREAD_FUNNELED < MPI_THREAD_SERIALIZED &&
                   MPI_THREAD_SERIALIZED < MPI_THREAD_MULTIPLE
               ? "in order"
               : "WRONG");
    MPI_Pcontrol(1);
    MPI_Finalize();
    state("behind");
    MPI_Get_version(&version, &subversion);
    printf("version: %s\n", version == MPI_VERSION ? "as before" : "WRONG");
    return 0;
}
