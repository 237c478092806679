/* check_types.c: what a datatype is made of, and whether what was sent is what is received (MPI 4.1, 3.3.1). Elements are
   compared by the names of their basic datatypes. */
#include <string.h>
#include "checked.h"
#include "errors.h"
#include "layouts.h"

struct rvmc_type rvmc_type_seen(MPI_Datatype type)
{
    struct rvmc_layout one = rvmc_measures(type);

    if (!one.committed)
        return (struct rvmc_type){0, 0, 0};
    return (struct rvmc_type){one.bytes, one.high - one.low, one.elements};
}

/* The name of a datatype; that of the call before stays too. */
const char *rvmc_type_said(MPI_Datatype type)
{
    static char names[2][MPI_MAX_OBJECT_NAME];
    static int next;

    if (!RVMC_SIZE_OF(type))
        return "of a derived datatype";
    next = !next;
    return strncpy(names[next], rvmc_type_name(type), MPI_MAX_OBJECT_NAME - 1);
}

void rvmc_type_pack(char *to, const void *from, long count, MPI_Datatype type)
{
    rvmc_pack(to, count * rvmc_measures(type).bytes, from, count, type);
}

/* As many values as so many bytes have. */
void rvmc_type_unpack(void *to, const char *from, long bytes, long count, MPI_Datatype type)
{
    rvmc_unpack(from, bytes, to, count, type);
}

/* --- signatures --- */

/* h -> factor * h + add: what some elements do to a hash. */
struct step {
    unsigned factor, add;
};
static const struct step no_step = {1, 0};

static struct step after(struct step first, struct step then)
{
    return (struct step){first.factor * then.factor, first.add * then.factor + then.add};
}

static struct step repeated(struct step one, long times)
{
    struct step all = no_step;

    for (; times > 0; times /= 2) {
        if (times % 2)
            all = after(all, one);
        one = after(one, one);
    }
    return all;
}

static struct step element(MPI_Datatype basic)
{
    return (struct step){16777619U, (unsigned)(basic >> 16) * 2654435761U + 1};
}

/* The first of the two basic datatypes of a pair; of any other, itself. */
static MPI_Datatype first_of(MPI_Datatype type)
{
    switch (type) {
    case MPI_FLOAT_INT: return MPI_FLOAT;
    case MPI_DOUBLE_INT: return MPI_DOUBLE;
    case MPI_LONG_INT: return MPI_LONG;
    case MPI_SHORT_INT: return MPI_SHORT;
    case MPI_2INT: return MPI_INT;
    case MPI_LONG_DOUBLE_INT: return MPI_LONG_DOUBLE;
    default: return type;
    }
}

/* The first elements of so many values, as far as *left of them go; takes their number away. */
static struct step elements_of(MPI_Datatype type, long count, long *left)
{
    const struct rvmc_layout *made = rvmc_layout_of(type);
    long each = rvmc_measures(type).elements, whole = each ? *left / each : count, one_value = each;
    struct step all;

    whole = whole < count ? whole : count;
    if (!made) {
        struct step one = element(first_of(type));

        all = repeated(first_of(type) == type ? one : after(one, element(MPI_INT)), whole);
        *left -= whole * each;
        if (whole == count || !*left)
            return all;
        --*left;
        return after(all, one);
    }
    all = no_step;
    if (whole) {
        struct step one = no_step;

        for (int i = 0; i < made->count; i++)
            one = after(one, elements_of(made->blocks[i].type, made->blocks[i].length, &one_value));
        all = repeated(repeated(one, made->times), whole);
        *left -= whole * each;
    }
    for (long t = 0; whole < count && t < made->times && *left; t++)
        for (int i = 0; i < made->count && *left; i++)
            all = after(all, elements_of(made->blocks[i].type, made->blocks[i].length, left));
    return all;
}

long rvmc_type_elements(MPI_Datatype type, long count)
{
    return rvmc_measures(type).elements * count;
}

/* A hash of the first elements of so many values. */
unsigned rvmc_type_hash(MPI_Datatype type, long count, long elements)
{
    return elements_of(type, count, &elements).add;
}

/* --- memory --- */

/* What visits the runs of bytes of some values, in their order; those that meet are one. */
struct visit {
    void (*each)(struct visit *visit, long low, long size);
    long low, size;                               /* the run that may go on */
    const struct rvmc_record *record;
    const char *call;
    unsigned behind;
    int is_written, found;
    struct rvmc_region region;
    const struct visit *other;
};

static void run(struct visit *v, long low, long size)
{
    if (size <= 0)
        return;
    if (v->size && v->low + v->size == low) {
        v->size += size;
        return;
    }
    if (v->size)
        v->each(v, v->low, v->size);
    v->low = low;
    v->size = size;
}

static void walk(struct visit *v, long place, long count, MPI_Datatype type)
{
    const struct rvmc_layout *l = rvmc_layout_of(type);
    long extent = l ? l->high - l->low : 0;

    if (!l)
        run(v, place, count * RVMC_SIZE_OF(type));
    else if (l->solid && (count <= 1 || extent == l->bytes))
        run(v, place + l->true_low, count * l->bytes);
    else
        for (; count > 0; count--, place += extent)
            for (long t = 0; t < l->times; t++)
                for (int i = 0; i < l->count; i++)
                    walk(v, place + t * l->stride + l->blocks[i].place, l->blocks[i].length, l->blocks[i].type);
}

static void walk_all(struct visit *v, const void *buffer, long count, MPI_Datatype type)
{
    walk(v, (long)buffer, count, type);
    if (v->size)
        v->each(v, v->low, v->size);
    v->size = 0;
}

/* Runs of one length at one stride are one region. */
static void add_to_region(struct visit *v, long low, long size)
{
    struct rvmc_region *r = &v->region;

    if (r->count && r->length == size && low > r->low) {
        long stride = low - (r->low + r->stride * (r->count - 1));

        if (r->count == 1 && stride >= size)
            r->stride = (unsigned)stride;
        if (stride == r->stride) {
            r->count++;
            return;
        }
    }
    if (r->count)
        rvmc_region_add(v->record, r);
    *r = (struct rvmc_region){(unsigned)low, (unsigned)size, 1, 1, 0, (char)v->is_written, 0, 0, 0};
}

void rvmc_type_regions(const struct rvmc_record *record, const void *buffer, long count, MPI_Datatype type, int is_received)
{
    struct visit v = {.each = add_to_region, .record = record, .is_written = is_received != 0};

    walk_all(&v, buffer, count, type);
    if (v.region.count)
        rvmc_region_add(record, &v.region);
}

static void look(struct visit *v, long low, long size)
{
    rvmc_check_range(v->call, v->behind, (const void *)low, size, v->is_written);
}

void rvmc_check_buffer(const char *call, unsigned behind, const void *buffer, long count, MPI_Datatype type, int is_written)
{
    struct visit v = {.each = look, .call = call, .behind = behind, .is_written = is_written};

    if (count <= 0 || buffer == MPI_IN_PLACE || (!buffer && !rvmc_layout_of(type)) || !rvmc_type_seen(type).size)
        return;
    walk_all(&v, buffer, count, type);
    if (!is_written && RVMC_SIZE_OF(type) >= 4)
        rvmc_heap_check_written(rvmc_check_call(call, behind), behind, (unsigned)(unsigned long)buffer,
                                (unsigned)(count * RVMC_SIZE_OF(type)));
}

/* --- two buffers of one call --- */

static void meet(struct visit *v, long low, long size)
{
    v->found |= low < v->other->low + v->other->size && v->other->low < low + size;
}

struct buffer {
    const void *at;
    long count;
    MPI_Datatype type;
};

/* A run of one buffer against all runs of the other, which stands behind `record`. */
static void meet_all(struct visit *v, long low, long size)
{
    const struct buffer *other = (const struct buffer *)v->record;
    struct visit one = {.low = low, .size = size}, inner = {.each = meet, .other = &one};

    walk_all(&inner, other->at, other->count, other->type);
    v->found |= inner.found;
}

void rvmc_check_apart(const char *call, unsigned behind, const void *out, long out_count, MPI_Datatype out_type, const void *in,
                      long in_count, MPI_Datatype in_type)
{
    struct buffer other = {out, out_count, out_type};
    struct visit v = {.each = meet_all, .record = (const struct rvmc_record *)&other};

    if (out_count <= 0 || in_count <= 0 || out == MPI_IN_PLACE || in == MPI_IN_PLACE || !out || !in ||
        !rvmc_type_seen(out_type).size || !rvmc_type_seen(in_type).size)
        return;
    walk_all(&v, in, in_count, in_type);
    if (v.found)
        RVMC_TELL(behind, 0, "%s: the buffer that is sent overlaps the one that is received into",
                  rvmc_check_call(call, behind));
}
