/* datatypes.c: names and sizes of datatypes and operations, and counts of elements in statuses. Of a datatype that a program
   made, its layout says that. */
#include <limits.h>
#include <string.h>
#include "../mpi.h"
#include "errors.h"
#include "layouts.h"

/* In the order of their numbers. The names are those that MPICH tells. */
static const char *const type_names[] = {
    0, "CHAR", "SIGNED_CHAR", "UNSIGNED_CHAR", "BYTE", "WCHAR", "SHORT", "UNSIGNED_SHORT", "INT", "UNSIGNED", "LONG",
    "UNSIGNED_LONG", "LONG_LONG_INT", "UNSIGNED_LONG_LONG", "FLOAT", "DOUBLE", "LONG_DOUBLE", "PACKED", "INT8_T", "INT16_T",
    "INT32_T", "INT64_T", "UINT8_T", "UINT16_T", "UINT32_T", "UINT64_T", "C_BOOL", "C_COMPLEX", "C_DOUBLE_COMPLEX",
    "C_LONG_DOUBLE_COMPLEX", "AINT", "OFFSET", "COUNT", "FLOAT_INT", "DOUBLE_INT", "LONG_INT", "SHORT_INT", "2INT",
    "LONG_DOUBLE_INT", "CHARACTER", "LOGICAL", "INTEGER", "REAL", "DOUBLE_PRECISION", "COMPLEX", "DOUBLE_COMPLEX", "INTEGER1",
    "INTEGER2", "INTEGER4", "INTEGER8", "REAL4", "REAL8", "2INTEGER", "2REAL", "2DOUBLE_PRECISION", "REAL16", "COMPLEX8",
    "COMPLEX16",
};
static const char *const op_names[] = {
    "MPI_OP_NULL", "MPI_MAX", "MPI_MIN", "MPI_SUM", "MPI_PROD", "MPI_LAND", "MPI_BAND", "MPI_LOR", "MPI_BOR", "MPI_LXOR",
    "MPI_BXOR", "MPI_MINLOC", "MPI_MAXLOC",
};

const char *rvmc_type_name(MPI_Datatype type)
{
    static char name[32];
    int number = type >> 16;

    if (number < 1 || number >= (int)(sizeof type_names / sizeof *type_names))
        return "MPI_DATATYPE_NULL";
    strcpy(name, "MPI_");
    return strcat(name, type_names[number]);
}

const char *rvmc_op_name(MPI_Op op)
{
    return op >= 0 && op < (int)(sizeof op_names / sizeof *op_names) ? op_names[op] : "this";
}

static const struct rvmc_layout *made(MPI_Datatype type)
{
    return rvmc_is_derived(type) ? rvmc_derived.layout(type) : 0;
}

static int is_pair(MPI_Datatype type)
{
    int kind = RVMC_KIND_OF(type);

    return kind == RVMC_FLOATING_PAIR || kind == RVMC_SIGNED_PAIR || kind == RVMC_TWO_SIGNED || kind == RVMC_TWO_FLOATING;
}

/* The bytes of one, without those that only keep the next one in its place. */
static long size_of(MPI_Datatype type)
{
    switch (type) {
    case MPI_DOUBLE_INT:
    case MPI_LONG_INT: return 12;
    case MPI_SHORT_INT: return 6;
    case MPI_LONG_DOUBLE_INT: return 20;
    default: return RVMC_SIZE_OF(type);
    }
}

static int checked(const char *call, MPI_Datatype type)
{
    if (!made(type) && !RVMC_SIZE_OF(type))
        return rvmc_code(call, RVMC_BAD_COUNT, 0, 0, 0, type, 0, 0, MPI_COMM_WORLD);
    return MPI_SUCCESS;
}

/* The size of a datatype, or MPI_UNDEFINED where the number has no room for it (5.1.5). */
int MPI_Type_size_x(MPI_Datatype type, MPI_Count *size)
{
    const struct rvmc_layout *l = made(type);

    *size = l ? l->size : size_of(type);
    return checked("MPI_Type_size", type);
}

int MPI_Type_size(MPI_Datatype type, int *size)
{
    MPI_Count all;
    int error = MPI_Type_size_x(type, &all);

    *size = all > INT_MAX ? MPI_UNDEFINED : (int)all;
    return error;
}

int MPI_Type_get_extent(MPI_Datatype type, MPI_Aint *low, MPI_Aint *extent)
{
    const struct rvmc_layout *l = made(type);

    *low = l ? l->low : 0;
    *extent = l ? l->high - l->low : RVMC_SIZE_OF(type);
    return checked("MPI_Type_get_extent", type);
}

int MPI_Type_get_extent_x(MPI_Datatype type, MPI_Count *low, MPI_Count *extent)
{
    return MPI_Type_get_extent(type, low, extent);
}

/* A short and an int have two bytes between them. */
int MPI_Type_get_true_extent(MPI_Datatype type, MPI_Aint *low, MPI_Aint *extent)
{
    const struct rvmc_layout *l = made(type);

    *low = l ? l->true_low : 0;
    *extent = l ? l->true_high - l->true_low : type == MPI_SHORT_INT ? 8 : size_of(type);
    return checked("MPI_Type_get_true_extent", type);
}

int MPI_Type_get_true_extent_x(MPI_Datatype type, MPI_Count *low, MPI_Count *extent)
{
    return MPI_Type_get_true_extent(type, low, extent);
}

int MPI_Type_extent(MPI_Datatype type, MPI_Aint *extent)
{
    MPI_Aint low;

    return MPI_Type_get_extent(type, &low, extent);
}

int MPI_Type_lb(MPI_Datatype type, MPI_Aint *low)
{
    MPI_Aint extent;

    return MPI_Type_get_extent(type, low, &extent);
}

int MPI_Type_ub(MPI_Datatype type, MPI_Aint *high)
{
    MPI_Aint low, extent;
    int error = MPI_Type_get_extent(type, &low, &extent);

    *high = low + extent;
    return error;
}

/* 3.2.5: bytes that are no whole number of elements have no count. */
int MPI_Get_count(const MPI_Status *status, MPI_Datatype type, int *count)
{
    const struct rvmc_layout *l = made(type);
    long size = l ? l->bytes : RVMC_SIZE_OF(type), bytes = status->rvmc_bytes;
    int error = checked("MPI_Get_count", type);

    if (!error && !size)
        *count = bytes ? MPI_UNDEFINED : 0;
    else if (!error)
        *count = bytes % size ? MPI_UNDEFINED : (int)(bytes / size);
    return error;
}

/* A pair has two elements (3.2.5), whose first may be there alone. */
int MPI_Get_elements_x(const MPI_Status *status, MPI_Datatype type, MPI_Count *count)
{
    const struct rvmc_layout *l = made(type);
    long size = RVMC_SIZE_OF(type), bytes = status->rvmc_bytes, rest = size ? bytes % size : 0;

    if (checked("MPI_Get_elements", type))
        return MPI_ERR_TYPE;
    if (l)
        *count = rvmc_derived.elements(bytes, type);
    else if (is_pair(type))
        *count = bytes / size * 2 + (rest != 0);
    else
        *count = rest ? MPI_UNDEFINED : bytes / size;
    return MPI_SUCCESS;
}

int MPI_Get_elements(const MPI_Status *status, MPI_Datatype type, int *count)
{
    MPI_Count found = 0;
    int error = MPI_Get_elements_x(status, type, &found);

    *count = (int)found;
    return error;
}

/* How many bytes so many elements are, or -1 where the status has no room for the number. */
static long bytes_of(MPI_Datatype type, long count)
{
    const struct rvmc_layout *l = made(type);
    long size = is_pair(type) ? RVMC_SIZE_OF(type) / 2 : RVMC_SIZE_OF(type), whole;

    if (!l)
        return count > INT_MAX / size ? -1 : count * size;
    if (!count || !l->elements)
        return count ? -1 : 0;
    whole = count / l->elements;
    if (whole > INT_MAX / l->bytes)
        return -1;
    for (whole *= l->bytes; whole <= INT_MAX && rvmc_derived.elements(whole, type) != count; whole++)
        ;
    return whole > INT_MAX ? -1 : whole;
}

/* A status has room for as many bytes as an int tells. */
int MPI_Status_set_elements_x(MPI_Status *status, MPI_Datatype type, MPI_Count count)
{
    const char *call = "MPI_Status_set_elements";
    int error = checked(call, type);
    long bytes = error || count < 0 ? -1 : bytes_of(type, count);

    if (!error && bytes < 0)
        error = rvmc_trapped(rvmc_raise(call, MPI_COMM_WORLD, MPI_ERR_COUNT, "count",
                                        count < 0 ? "count %d is negative" : "count %d is too large", count));
    if (!error)
        status->rvmc_bytes = (int)bytes;
    return error;
}

int MPI_Status_set_elements(MPI_Status *status, MPI_Datatype type, int count)
{
    return MPI_Status_set_elements_x(status, type, count);
}
