/* Gives and takes back blocks of random sizes in random order, and looks whether each keeps what was written into it, begins
   where it has to, and is zero where calloc gave it. Ranks have seeds of their own. */
#include <mpi.h>
#include <stdint.h>
#include <stdio.h>
#include <stdlib.h>
#include <string.h>

#ifndef STEPS
#define STEPS 150
#endif
#define BLOCKS 40
#ifndef FREE_AT_LAST
#define FREE_AT_LAST 0
#endif

static unsigned seed;
static struct { unsigned char *at; size_t size; unsigned char with; } blocks[BLOCKS];
static long wrong, given;

static unsigned next(unsigned below)
{
    seed = seed * 1103515245 + 12345;
    return (seed >> 8) % below;
}

static size_t next_size(void)
{
    unsigned kind = next(8);

    return kind < 5 ? next(100) : kind < 7 ? next(600) : next(4000);
}

static void look(int n, size_t size)
{
    for (size_t i = 0; i < size; i++)
        wrong += blocks[n].at[i] != blocks[n].with;
}

static void write_into(int n, size_t size, size_t align)
{
    blocks[n].size = size;
    blocks[n].with = (unsigned char)next(256);
    wrong += !blocks[n].at || (uintptr_t)blocks[n].at % align;
    memset(blocks[n].at, blocks[n].with, size);
    given += size;
}

static void give(int n, size_t size)
{
    size_t align = 16;
    void *at = 0;

    switch (next(4)) {
    case 0:
        at = calloc(size, 1);
        for (size_t i = 0; i < size; i++)
            wrong += ((char *)at)[i] != 0;
        break;
    case 1:
        align = 16 << next(6);
        wrong += posix_memalign(&at, align, size) != 0;
        break;
    default:
        at = malloc(size);
    }
    blocks[n].at = at;
    write_into(n, size, align);
}

static void again(int n, size_t size)
{
    size_t kept = size < blocks[n].size ? size : blocks[n].size;

    blocks[n].at = realloc(blocks[n].at, size);
    look(n, kept);
    write_into(n, size, 16);
}

int main(int argc, char **argv)
{
    int rank;

    MPI_Init(&argc, &argv);
    MPI_Comm_rank(MPI_COMM_WORLD, &rank);
    seed = rank + 1;
    for (int step = 0; step < STEPS; step++) {
        int n = next(BLOCKS);

        if (!blocks[n].at) {
            give(n, next_size());
        } else if (next(3)) {
            look(n, blocks[n].size);
            free(blocks[n].at);
            blocks[n].at = 0;
        } else {
            again(n, next_size() + 1);
        }
    }
    for (int n = 0; n < BLOCKS; n++)
        if (blocks[n].at) {
            look(n, blocks[n].size);
            free(blocks[n].at);
        }
    /* what was given is one block again */
    if (FREE_AT_LAST) {
        void *most = malloc(FREE_AT_LAST);

        wrong += !most;
        free(most);
    }
    printf("%ld bytes given, %ld wrong\n", given, wrong);
    MPI_Finalize();
    return wrong != 0;
}
