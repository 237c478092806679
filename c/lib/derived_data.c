/* derived_data.c: data of a datatype that a program made, as collectives give and take them: packed and unpacked. */
#include <stdlib.h>
#ifndef __clang__
#pragma GCC optimize("Os")
#endif
#define RVMC_OF_DERIVED
#include "derived_calls.h"
#include "../mpi.h"
#include "group.h"

void rvmc_give(struct group *g, const void *buffer, long count, MPI_Datatype type, int to)
{
    char *packed = 0;
    const void *from = buffer;

    if (g->code)
        return;
    if (rvmc_is_derived(type))
        from = packed = rvmc_derived.packed(buffer, (int)count, type);
    if (from || !rvmc_is_derived(type))
        give_bytes(g, from, bytes_of(count, type), count, type, to);
    else
        fault(g, RVMC_NO_MEMORY, 0, 0, 0);
    free(packed);
}

void rvmc_take(struct group *g, void *buffer, long count, MPI_Datatype type, int from)
{
    long size;
    char *packed;

    if (g->code)
        return;
    size = bytes_of(count, type);
    packed = rvmc_is_derived(type) ? malloc(size ? size : 1) : buffer;
    if (!packed && rvmc_is_derived(type))
        fault(g, RVMC_NO_MEMORY, 0, 0, 0);
    take_bytes(g, packed, size, count, type, from);
    if (!rvmc_is_derived(type))
        return;
    if (!g->code)
        rvmc_derived.unpacked(packed, size, buffer, count, type);
    free(packed);
}

/* From a place to another one of the same rank, by either's datatype. */
void rvmc_copy(struct group *g, void *to, long to_count, MPI_Datatype to_type, const void *from, long count, MPI_Datatype type)
{
    char *packed;

    if (g->code)
        return;
    if (!rvmc_is_derived(type) && !rvmc_is_derived(to_type)) {
        memcpy(to, from, bytes_of(count, type));
        return;
    }
    packed = rvmc_derived.packed(from, (int)count, type);
    if (packed)
        rvmc_derived.unpacked(packed, bytes_of(count, type), to, to_count, to_type);
    else
        fault(g, RVMC_NO_MEMORY, 0, 0, 0);
    free(packed);
}
