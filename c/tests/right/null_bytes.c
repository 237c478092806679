/* A rank whose list was never filled has no bytes at a null pointer, and that is right. With a number one call has some. */
#include <mpi.h>
#include <stdio.h>
#include <stdlib.h>
#include <string.h>

static char *volatile names, *volatile others;

int main(int argc, char **argv)
{
    char text[100] = "text";
    volatile int none = 0, some = 100;
    long sum = 0;

    MPI_Init(&argc, &argv);
    memcpy(names, others, none);
    memmove(names, others, none);
    memset(names, 1, none);
    sum += memcmp(names, others, none);
    switch (argc > 1 ? atoi(argv[1]) : 0) {
    case 1: memcpy(text, names, some); break;
    case 2: memcpy(names, text, some); break;
    case 3: memmove(text, names, some); break;
    case 4: memmove(names, text, some); break;
    case 5: memset(names, 1, some); break;
    case 6: sum += memcmp(names, text, some); break;
    case 7: sum += memcmp(text, names, some); break;
    case 8: sum += strlen(names); break;
    }
    printf("%ld %s\n", sum, text);
    MPI_Finalize();
    return 0;
}
