/* Asks for a table in one of several ways, and says whether there was room for it. The first word is the way, the second the
   number of bytes, or of elements of 8. */
#include <malloc.h>
#include <mpi.h>
#include <stdio.h>
#include <stdlib.h>
#include <string.h>

static char text[300001];

static void *table(int way, size_t n)
{
    void *made = 0;

    switch (way) {
    case 1: made = malloc(n); break;
    case 2: made = calloc(n, 8); break;
    case 3: made = realloc(malloc(10), n); break;
    case 4: made = aligned_alloc(64, n); break;
    case 5: if (posix_memalign(&made, 64, n)) made = 0; break;
    case 6: made = memalign(64, n); break;
    case 7: made = strdup(text); break;
    case 8: made = strndup(text, n); break;
    case 9: made = calloc(n, n); break;
    case 10: MPI_Alloc_mem(n, MPI_INFO_NULL, &made); break;
    }
    return made;
}

int main(int argc, char **argv)
{
    void *made, *more;

    MPI_Init(&argc, &argv);
    MPI_Comm_set_errhandler(MPI_COMM_WORLD, MPI_ERRORS_RETURN);
    memset(text, 'a', sizeof text - 1);
    made = table(atoi(argv[1]), strtoul(argv[2], 0, 10));
    more = malloc(3000000);
    printf("%s, %s\n", made ? "room" : "no room", more ? "room" : "no room");
    MPI_Finalize();
    return 0;
}
