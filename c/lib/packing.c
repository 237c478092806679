/* packing.c: bytes laid out by a datatype, one behind the other (MPI 4.1, 5.2). */
#include <limits.h>
#include <string.h>
#include "../mpi.h"
#include "errors.h"
#include "layouts.h"

/* A way through data and through packed bytes side by side. */
struct way {
    char *packed;
    long left;                                    /* bytes of packed */
    int out;                                      /* whether bytes go to packed, or from there */
};

static void copy_run(struct way *w, char *place, long size)
{
    long n = size < w->left ? size : w->left;

    if (w->out)
        memcpy(w->packed, place, n);
    else
        memcpy(place, w->packed, n);
    w->packed += n;
    w->left -= n;
}

static void copy(struct way *w, char *place, long count, MPI_Datatype type)
{
    const struct rvmc_layout *l = rvmc_layout_of(type);
    long extent;

    if (!l) {
        copy_run(w, place, count * RVMC_SIZE_OF(type));
        return;
    }
    extent = l->high - l->low;
    if (l->solid && (count == 1 || extent == l->bytes)) {
        copy_run(w, place + l->true_low, count * l->bytes);
        return;
    }
    for (; count > 0 && w->left; count--, place += extent)
        for (long t = 0; t < l->times; t++)
            for (int i = 0; i < l->count && w->left; i++)
                copy(w, place + t * l->stride + l->blocks[i].place, l->blocks[i].length, l->blocks[i].type);
}

long rvmc_pack(char *packed, long size, const void *place, long count, MPI_Datatype type)
{
    struct way w = {packed, size, 1};

    copy(&w, (char *)place, count, type);
    return size - w.left;
}

long rvmc_unpack(const char *packed, long size, void *place, long count, MPI_Datatype type)
{
    struct way w = {(char *)packed, size, 0};

    copy(&w, place, count, type);
    return size - w.left;
}

/* --- elements (3.2.5) --- */

/* Counts the elements in the first bytes of so many of a datatype, and takes their bytes away. */
static long count_elements(long *bytes, long count, MPI_Datatype type)
{
    struct rvmc_layout one = rvmc_measures(type);
    long found, whole = one.bytes ? *bytes / one.bytes : 0;

    whole = whole < count ? whole : count;
    *bytes -= whole * one.bytes;
    found = whole * one.elements;
    if (whole == count || !*bytes || !one.bytes)
        return found;
    if (!one.count) {
        /* the first number of a pair may be there alone */
        if (one.elements == 2 && *bytes >= one.bytes / 2) {
            *bytes -= one.bytes / 2;
            return found + 1;
        }
        return found;
    }
    for (long t = 0; t < one.times && *bytes; t++)
        for (int i = 0; i < one.count && *bytes; i++) {
            long before = *bytes;
            struct rvmc_layout within = rvmc_measures(one.blocks[i].type);

            found += count_elements(bytes, one.blocks[i].length, one.blocks[i].type);
            if (before - *bytes < within.bytes * one.blocks[i].length)
                return found;
        }
    return found;
}

long rvmc_elements_in(long bytes, MPI_Datatype type)
{
    struct rvmc_layout one = rvmc_measures(type);
    long found;

    if (!one.bytes)
        return bytes ? -1 : 0;
    found = count_elements(&bytes, LONG_MAX / one.bytes, type);
    return bytes ? -1 : found;
}

/* --- packing by the program (5.2) --- */

static int check(const char *call, int count, MPI_Datatype type, MPI_Comm c)
{
    int size, error = rvmc_comm_code(call, rvmc_asked_of(RVMC_SIZE, c, &size), c);

    error = error ? error : rvmc_check_count(call, "count", count);
    return error ? error : rvmc_check_type(call, "datatype", type, 1);
}

/* Whether so many bytes have room behind a position. */
static int check_room(const char *call, const char *argument, long bytes, long size, long position)
{
    if (position >= 0 && bytes <= size - position)
        return MPI_SUCCESS;
    return rvmc_trapped(rvmc_raise(call, MPI_COMM_WORLD, MPI_ERR_ARG, argument,
                                   "%d bytes at position %d of a buffer of %d", bytes, position, size));
}

int MPI_Pack(const void *from, int count, MPI_Datatype type, void *packed, int size, int *position, MPI_Comm c)
{
    int error = check("MPI_Pack", count, type, c);
    long bytes = error ? 0 : count * rvmc_measures(type).bytes;

    error = error ? error : check_room("MPI_Pack", "outsize", bytes, size, *position);
    if (!error)
        *position += (int)rvmc_pack((char *)packed + *position, bytes, from, count, type);
    return error;
}

int MPI_Unpack(const void *packed, int size, int *position, void *to, int count, MPI_Datatype type, MPI_Comm c)
{
    int error = check("MPI_Unpack", count, type, c);
    long bytes = error ? 0 : count * rvmc_measures(type).bytes;

    error = error ? error : check_room("MPI_Unpack", "insize", bytes, size, *position);
    if (!error)
        *position += (int)rvmc_unpack((const char *)packed + *position, bytes, to, count, type);
    return error;
}

int MPI_Pack_size(int count, MPI_Datatype type, MPI_Comm c, int *size)
{
    int error = check("MPI_Pack_size", count, type, c);
    long bytes = error ? 0 : count * rvmc_measures(type).bytes;

    if (!error)
        *size = bytes > INT_MAX ? MPI_UNDEFINED : (int)bytes;
    return error;
}
