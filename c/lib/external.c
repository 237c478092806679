/* external.c: packing in the form external32 (MPI 4.1, 5.3): numbers with the high byte first, of sizes that are the same
   everywhere. A long has 4 bytes there, and a wide character 2. */
#include <string.h>
#include "../mpi.h"
#include "errors.h"
#include "layouts.h"

/* One of the numbers that a basic datatype is: where, how large, and how large in this form. */
struct number {
    int at, size, external;
};

static int numbers_of(MPI_Datatype type, struct number n[2])
{
    int size = RVMC_SIZE_OF(type), half = size / 2;

    switch (RVMC_KIND_OF(type)) {
    case RVMC_FLOATING_PAIR:
    case RVMC_SIGNED_PAIR:
        n[0] = (struct number){0, half, half};
        n[1] = (struct number){half, 4, 4};
        if (type == MPI_SHORT_INT)
            n[0].size = n[0].external = 2;
        if (type == MPI_LONG_INT)
            n[0].external = 4;
        return 2;
    case RVMC_TWO_SIGNED:
    case RVMC_TWO_FLOATING:
    case RVMC_COMPLEX:
        n[0] = (struct number){0, half, half};
        n[1] = (struct number){half, half, half};
        return 2;
    default:
        n[0] = (struct number){0, size, size};
        if (type == MPI_LONG || type == MPI_UNSIGNED_LONG)
            n[0].external = 4;
        if (type == MPI_WCHAR)
            n[0].external = 2;
        return 1;
    }
}

static void write_number(char *packed, const char *place, const struct number *n)
{
    for (int i = 0; i < n->external; i++)
        packed[i] = place[n->external - 1 - i];
}

/* A number that is larger here has the sign of the one that is packed. */
static void read_number(const char *packed, char *place, const struct number *n, int is_signed)
{
    memset(place + n->external, is_signed && packed[0] < 0 ? -1 : 0, n->size - n->external);
    for (int i = 0; i < n->external; i++)
        place[n->external - 1 - i] = packed[i];
}

/* A way through data: counts the packed bytes, and writes or reads them where there are any. */
struct way {
    char *packed;
    long bytes;
    enum { COUNT, WRITE, READ } what;
};

static void go_number(struct way *w, char *place, const struct number *n, MPI_Datatype type)
{
    char *packed = w->packed + w->bytes;

    if (w->what == WRITE)
        write_number(packed, place + n->at, n);
    else if (w->what == READ)
        read_number(packed, place + n->at, n, RVMC_KIND_OF(type) != RVMC_UNSIGNED);
    w->bytes += n->external;
}

static void go(struct way *w, char *place, long count, MPI_Datatype type)
{
    const struct rvmc_layout *l = rvmc_layout_of(type);
    long extent = l ? l->high - l->low : RVMC_SIZE_OF(type);
    struct number n[2];
    int numbers = l ? 0 : numbers_of(type, n);

    for (; count > 0; count--, place += extent) {
        for (int i = 0; i < numbers; i++)
            go_number(w, place, n + i, type);
        for (long t = 0; l && t < l->times; t++)
            for (int i = 0; i < l->count; i++)
                go(w, place + t * l->stride + l->blocks[i].place, l->blocks[i].length, l->blocks[i].type);
    }
}

static int check(const char *call, const char *form, int count, MPI_Datatype type)
{
    int error = rvmc_check_count(call, "count", count);

    if (!error && strcmp(form, "external32"))
        error = rvmc_trapped(rvmc_raise(call, MPI_COMM_WORLD, MPI_ERR_ARG, "datarep", "'%s' isn't external32", form));
    return error ? error : rvmc_check_type(call, "datatype", type, 1);
}

static int go_packed(const char *call, const char *form, const struct way *first, MPI_Aint size, MPI_Aint *position,
                     const void *place, int count, MPI_Datatype type)
{
    struct way counted = {0, 0, COUNT}, w = *first;
    int error = check(call, form, count, type);

    if (error)
        return error;
    go(&counted, 0, count, type);
    if (*position < 0 || counted.bytes > size - *position)
        return rvmc_trapped(rvmc_raise(call, MPI_COMM_WORLD, MPI_ERR_ARG, "position",
                                       "%d bytes at position %d of a buffer of %d", counted.bytes, *position, size));
    w.bytes = *position;
    go(&w, (char *)place, count, type);
    *position = w.bytes;
    return MPI_SUCCESS;
}

int MPI_Pack_external(const char form[], const void *from, int count, MPI_Datatype type, void *packed, MPI_Aint size,
                      MPI_Aint *position)
{
    struct way w = {packed, 0, WRITE};

    return go_packed("MPI_Pack_external", form, &w, size, position, from, count, type);
}

int MPI_Unpack_external(const char form[], const void *packed, MPI_Aint size, MPI_Aint *position, void *to, int count,
                        MPI_Datatype type)
{
    struct way w = {(char *)packed, 0, READ};

    return go_packed("MPI_Unpack_external", form, &w, size, position, to, count, type);
}

int MPI_Pack_external_size(const char form[], int count, MPI_Datatype type, MPI_Aint *size)
{
    struct way w = {0, 0, COUNT};
    int error = check("MPI_Pack_external_size", form, count, type);

    if (!error)
        go(&w, 0, count, type);
    *size = w.bytes;
    return error;
}
