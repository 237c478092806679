/* memcpy, memmove, memset, memcmp and strlen at all places in their 8 bytes and at all lengths below MOST, each beside a loop
   that goes byte by byte. Rank n has its source at place n. */
#include <mpi.h>
#include <stdio.h>
#include <stdlib.h>
#include <string.h>

#ifndef MOST
#define MOST 20
#endif
#define ROOM (MOST + 48)

/* The compiler has its own ways to copy what it knows. */
static void *(*volatile copy)(void *, const void *, size_t) = memcpy;
static void *(*volatile move)(void *, const void *, size_t) = memmove;
static void *(*volatile set)(void *, int, size_t) = memset;
static int (*volatile compare)(const void *, const void *, size_t) = memcmp;
static size_t (*volatile length)(const char *) = strlen;

static unsigned char by_library[ROOM] __attribute__((aligned(16))), by_loop[ROOM] __attribute__((aligned(16)));
static unsigned char source[ROOM] __attribute__((aligned(16)));
static long wrong, sum;

/* The bytes that matter: as many as are copied, and some on both sides. */
static int end;

static void fill(void)
{
    static unsigned seed = 1;

    for (int i = 0; i < end; i++) {
        seed = seed * 1103515245 + 12345;
        source[i] = seed >> 16;
        by_library[i] = by_loop[i] = seed >> 24;
    }
}

static void look(const void *returned, const void *expected)
{
    wrong += returned != expected;
    for (int i = 0; i < end; i++) {
        wrong += by_library[i] != by_loop[i];
        sum += (long)(i + 1) * by_library[i];
    }
}

static int sign(int n)
{
    return (n > 0) - (n < 0);
}

/* The sides differ in one byte, or in none. */
static void compare_at(int to, int from, int n)
{
    int at = n ? (n * 7 + to + from) % (n + 1) : 0, expected = 0;

    for (int i = 0; i < n; i++)
        by_library[to + i] = source[from + i];
    by_library[to + n] ^= 1;
    if (at < n) {
        by_library[to + at] ^= 0x90;
        expected = sign(by_library[to + at] - source[from + at]);
    }
    wrong += sign(compare(by_library + to, source + from, n)) != expected;
    sum += expected;
}

static void try_all(int to, int from, int n)
{
    end = n + 32;
    fill();
    for (int i = 0; i < n; i++)
        by_loop[to + i] = source[from + i];
    look(copy(by_library + to, source + from, n), by_library + to);
    for (int i = 0; i < n; i++)
        by_loop[to + i] = (unsigned char)(n + from);
    look(set(by_library + to, n + from + 512, n), by_library + to);
    for (int i = 0; i < n; i++)
        source[i] = by_loop[from + 8 + i];
    for (int i = 0; i < n; i++)
        by_loop[to + 8 + i] = source[i];
    look(move(by_library + to + 8, by_library + from + 8, n), by_library + to + 8);
    compare_at(to, from, n);
    for (int i = 0; i < end; i++)
        source[i] = source[i] ? source[i] : 200;
    source[from + n] = 0;
    wrong += length((char *)source + from) != (size_t)n;
}

int main(int argc, char **argv)
{
    int rank, to;

    MPI_Init(&argc, &argv);
    MPI_Comm_rank(MPI_COMM_WORLD, &rank);
    for (int n = 0; n < MOST; n++)
        for (to = 0; to < 8; to++)
            try_all(to, rank, n);
    printf("place %d: sum %ld, %ld wrong\n", rank, sum, wrong);
    MPI_Finalize();
    return wrong != 0;
}
