/* constructors.c: the calls that make a datatype of others (MPI 4.1, 5.1.2, 5.1.7, 5.1.10), but for those of arrays, and the
   old names of three of them. */
#include <stdlib.h>
#include "../mpi.h"
#include "layouts.h"

/* So many elements, in as many repetitions. */
static int make_one(const char *call, struct rvmc_layout *l, long times, long stride, long length, MPI_Datatype type,
                    MPI_Datatype *made)
{
    if (!l)
        return MPI_ERR_NO_MEM;
    l->times = times;
    l->stride = stride;
    l->blocks[0] = (struct rvmc_block){0, length, type};
    return rvmc_made_type(call, l, made);
}

static int check(const char *call, int count, MPI_Datatype type)
{
    int error = rvmc_check_count(call, "count", count);

    return error ? error : rvmc_check_type(call, "oldtype", type, 0);
}

static long extent_of(MPI_Datatype type)
{
    struct rvmc_layout one = rvmc_measures(type);

    return one.high - one.low;
}

int MPI_Type_contiguous(int count, MPI_Datatype type, MPI_Datatype *made)
{
    static const char call[] = "MPI_Type_contiguous";
    int error = check(call, count, type);

    if (error)
        return error;
    return make_one(call, rvmc_new_contents(call, 1, MPI_COMBINER_CONTIGUOUS, RVMC_PARTS({&count, 1}), 0, 0, 1, &type), 1, 0,
                    count, type, made);
}

int MPI_Type_vector(int count, int length, int stride, MPI_Datatype type, MPI_Datatype *made)
{
    static const char call[] = "MPI_Type_vector";
    const struct rvmc_part *parts = RVMC_PARTS({&count, 1}, {&length, 1}, {&stride, 1});
    int error = check(call, count, type);

    error = error ? error : rvmc_check_count(call, "blocklength", length);
    if (error)
        return error;
    return make_one(call, rvmc_new_contents(call, 1, MPI_COMBINER_VECTOR, parts, 0, 0, 1, &type), count,
                    stride * extent_of(type), length, type, made);
}

static int hvector(const char *call, int count, int length, MPI_Aint stride, MPI_Datatype type, MPI_Datatype *made)
{
    const struct rvmc_part *parts = RVMC_PARTS({&count, 1}, {&length, 1});
    int error = check(call, count, type);

    error = error ? error : rvmc_check_count(call, "blocklength", length);
    if (error)
        return error;
    return make_one(call, rvmc_new_contents(call, 1, MPI_COMBINER_HVECTOR, parts, 1, &stride, 1, &type), count, stride, length,
                    type, made);
}

int MPI_Type_create_hvector(int count, int length, MPI_Aint stride, MPI_Datatype type, MPI_Datatype *made)
{
    return hvector("MPI_Type_create_hvector", count, length, stride, type, made);
}

int MPI_Type_hvector(int count, int length, MPI_Aint stride, MPI_Datatype type, MPI_Datatype *made)
{
    return hvector("MPI_Type_hvector", count, length, stride, type, made);
}

/* Blocks at places: each of its own length, or all of one, and places in elements or in bytes. */
struct blocks {
    int count, length;
    const int *lengths, *places;
    const MPI_Aint *bytes;
};

static int make_blocks(const char *call, int combiner, const struct blocks *b, const struct rvmc_part *parts,
                       MPI_Datatype type, MPI_Datatype *made)
{
    int error = check(call, b->count, type);
    long extent;
    struct rvmc_layout *l;

    for (int i = 0; i < b->count && !error; i++)
        error = rvmc_check_count(call, b->lengths ? "array_of_blocklengths" : "blocklength",
                                 b->lengths ? b->lengths[i] : b->length);
    if (error)
        return error;
    l = rvmc_new_contents(call, b->count, combiner, parts, b->bytes ? b->count : 0, b->bytes, 1, &type);
    if (!l)
        return MPI_ERR_NO_MEM;
    extent = extent_of(type);
    for (int i = 0; i < b->count; i++)
        l->blocks[i] = (struct rvmc_block){b->bytes ? b->bytes[i] : b->places[i] * extent,
                                           b->lengths ? b->lengths[i] : b->length, type};
    return rvmc_made_type(call, l, made);
}

int MPI_Type_indexed(int count, const int lengths[], const int places[], MPI_Datatype type, MPI_Datatype *made)
{
    struct blocks b = {count, 0, lengths, places, 0};

    return make_blocks("MPI_Type_indexed", MPI_COMBINER_INDEXED, &b,
                       RVMC_PARTS({&count, 1}, {lengths, count}, {places, count}), type, made);
}

static int hindexed(const char *call, int count, const int *lengths, const MPI_Aint *places, MPI_Datatype type,
                    MPI_Datatype *made)
{
    struct blocks b = {count, 0, lengths, 0, places};

    return make_blocks(call, MPI_COMBINER_HINDEXED, &b, RVMC_PARTS({&count, 1}, {lengths, count}), type, made);
}

int MPI_Type_create_hindexed(int count, const int lengths[], const MPI_Aint places[], MPI_Datatype type, MPI_Datatype *made)
{
    return hindexed("MPI_Type_create_hindexed", count, lengths, places, type, made);
}

int MPI_Type_hindexed(int count, int lengths[], MPI_Aint places[], MPI_Datatype type, MPI_Datatype *made)
{
    return hindexed("MPI_Type_hindexed", count, lengths, places, type, made);
}

int MPI_Type_create_indexed_block(int count, int length, const int places[], MPI_Datatype type, MPI_Datatype *made)
{
    struct blocks b = {count, length, 0, places, 0};

    return make_blocks("MPI_Type_create_indexed_block", MPI_COMBINER_INDEXED_BLOCK, &b,
                       RVMC_PARTS({&count, 1}, {&length, 1}, {places, count}), type, made);
}

int MPI_Type_create_hindexed_block(int count, int length, const MPI_Aint places[], MPI_Datatype type, MPI_Datatype *made)
{
    struct blocks b = {count, length, 0, 0, places};

    return make_blocks("MPI_Type_create_hindexed_block", MPI_COMBINER_HINDEXED_BLOCK, &b,
                       RVMC_PARTS({&count, 1}, {&length, 1}), type, made);
}

static int make_struct(const char *call, int count, const int *lengths, const MPI_Aint *places, const MPI_Datatype *types,
                       MPI_Datatype *made)
{
    int error = rvmc_check_count(call, "count", count);
    struct rvmc_layout *l;

    for (int i = 0; i < count && !error; i++) {
        error = rvmc_check_count(call, "array_of_blocklengths", lengths[i]);
        error = error ? error : rvmc_check_type(call, "array_of_types", types[i], 0);
    }
    if (error)
        return error;
    l = rvmc_new_contents(call, count, MPI_COMBINER_STRUCT, RVMC_PARTS({&count, 1}, {lengths, count}), count, places, count,
                          types);
    if (!l)
        return MPI_ERR_NO_MEM;
    for (int i = 0; i < count; i++)
        l->blocks[i] = (struct rvmc_block){places[i], lengths[i], types[i]};
    return rvmc_made_type(call, l, made);
}

int MPI_Type_create_struct(int count, const int lengths[], const MPI_Aint places[], const MPI_Datatype types[],
                           MPI_Datatype *made)
{
    return make_struct("MPI_Type_create_struct", count, lengths, places, types, made);
}

int MPI_Type_struct(int count, int lengths[], MPI_Aint places[], MPI_Datatype types[], MPI_Datatype *made)
{
    return make_struct("MPI_Type_struct", count, lengths, places, types, made);
}

int MPI_Type_create_resized(MPI_Datatype type, MPI_Aint low, MPI_Aint extent, MPI_Datatype *made)
{
    static const char call[] = "MPI_Type_create_resized";
    const MPI_Aint bounds[2] = {low, extent};
    int error = check(call, 0, type);
    struct rvmc_layout *l;

    if (error)
        return error;
    l = rvmc_new_contents(call, 1, MPI_COMBINER_RESIZED, RVMC_PARTS({0, 0}), 2, bounds, 1, &type);
    error = make_one(call, l, 1, 0, 1, type, made);
    if (!error) {
        l->low = low;
        l->high = low + extent;
        l->low_set = l->high_set = 1;
    }
    return error;
}

/* The copy is committed where the other is (5.1.10), and has its attributes. */
int MPI_Type_dup(MPI_Datatype type, MPI_Datatype *made)
{
    static const char call[] = "MPI_Type_dup";
    int error = check(call, 0, type);
    struct rvmc_layout one = rvmc_measures(type), *l;

    *made = MPI_DATATYPE_NULL;
    if (error)
        return error;
    l = rvmc_new_contents(call, 1, MPI_COMBINER_DUP, RVMC_PARTS({0, 0}), 0, 0, 1, &type);
    error = make_one(call, l, 1, 0, 1, type, made);
    if (error)
        return error;
    l->committed = one.committed;
    if (rvmc_attributes_of_types)
        error = rvmc_attributes_of_types(type, *made);
    if (error)
        MPI_Type_free(made);
    return error;
}
