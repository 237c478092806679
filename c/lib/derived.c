/* derived.c: datatypes that a program makes (MPI 4.1, 5.1): what follows from their blocks, and how long they stay. A
   datatype stays as long as the program has its handle, or another datatype or a request was made with it (5.1.9). */
#include <stdlib.h>
#include <string.h>
#include "../mpi.h"
#include "errors.h"
#include "layouts.h"

enum { MOST_TYPES = 16384, ROOM = 16 };

static struct rvmc_layout **table;
static int room;

struct rvmc_layout *rvmc_layout_of(MPI_Datatype type)
{
    int place = RVMC_MADE_PLACE(type);

    return RVMC_SHAPE_OF(type) == RVMC_SHAPE_OF(RVMC_MADE(0)) && place >= 0 && place < room ? table[place] : 0;
}

/* --- what counts for one of a datatype --- */

static int is_pair(MPI_Datatype type)
{
    int kind = RVMC_KIND_OF(type);

    return kind == RVMC_FLOATING_PAIR || kind == RVMC_SIGNED_PAIR || kind == RVMC_TWO_SIGNED || kind == RVMC_TWO_FLOATING;
}

/* The alignment of a basic datatype is its size, but for those that are two numbers. */
static int align_of(MPI_Datatype type)
{
    int size = RVMC_SIZE_OF(type);

    return is_pair(type) || RVMC_KIND_OF(type) == RVMC_COMPLEX ? size / 2 : size;
}

struct rvmc_layout rvmc_measures(MPI_Datatype type)
{
    struct rvmc_layout *found = rvmc_layout_of(type);
    long extent = RVMC_SIZE_OF(type);
    MPI_Aint low, true_extent = 0;
    int size = 0;

    if (found)
        return *found;
    if (extent) {
        MPI_Type_size(type, &size);
        MPI_Type_get_true_extent(type, &low, &true_extent);
    }
    return (struct rvmc_layout){
        .committed = 1, .align = align_of(type), .solid = 1, .bytes = extent, .size = size,
        .elements = is_pair(type) ? 2 : extent != 0, .high = extent, .true_high = true_extent,
    };
}

/* --- what follows from the blocks --- */

struct bound {
    int any, set;
    long at;
};

/* Of two bounds that which was set counts, and else the outer one, in a direction. */
static void widen(struct bound *b, long at, int set, int direction)
{
    if (!b->any || set > b->set || (set == b->set && (at - b->at) * direction > 0))
        b->at = at;
    b->any = 1;
    b->set |= set;
}

struct bounds {
    struct bound low, high, true_low, true_high;
};

static void add_block(struct bounds *b, const struct rvmc_block *block, long shift)
{
    struct rvmc_layout one = rvmc_measures(block->type);
    long all = (block->length - 1) * (one.high - one.low), place = block->place + shift;
    long first = place + (all < 0 ? all : 0), last = place + (all < 0 ? 0 : all);

    if (block->length == 0)
        return;
    if (block->type == MPI_LB)
        widen(&b->low, place, 1, -1);
    if (block->type == MPI_UB)
        widen(&b->high, place, 1, 1);
    if (one.bytes || one.low_set)
        widen(&b->low, first + one.low, one.low_set, -1);
    if (one.bytes || one.high_set)
        widen(&b->high, last + one.high, one.high_set, 1);
    if (one.bytes) {
        widen(&b->true_low, first + one.true_low, 0, -1);
        widen(&b->true_high, last + one.true_high, 0, 1);
    }
}

/* The extent is rounded up so that each element of an array is aligned as its basic datatypes want it (5.1.6). */
static void set_bounds(struct rvmc_layout *l)
{
    struct bounds b = {{0, 0, 0}, {0, 0, 0}, {0, 0, 0}, {0, 0, 0}};
    long over;

    for (int i = 0; i < l->count && l->times > 0; i++) {
        add_block(&b, l->blocks + i, 0);
        add_block(&b, l->blocks + i, (l->times - 1) * l->stride);
    }
    l->low = b.low.at;
    l->high = b.high.at;
    l->low_set = b.low.set;
    l->high_set = b.high.set;
    l->true_low = b.true_low.at;
    l->true_high = b.true_high.at;
    over = l->high_set ? 0 : (l->high - l->low) % l->align;
    l->high += over ? l->align - over : 0;
}

static void set_sizes(struct rvmc_layout *l)
{
    l->align = 1;
    for (int i = 0; i < l->count; i++) {
        struct rvmc_layout one = rvmc_measures(l->blocks[i].type);
        long n = l->times * l->blocks[i].length;

        l->bytes += n * one.bytes;
        l->size += n * one.size;
        l->elements += n * one.elements;
        if (n && one.align > l->align)
            l->align = one.align;
    }
}

/* Whether the data follow each other without gaps, in their order. */
static int is_solid(const struct rvmc_layout *l)
{
    long next = 0;
    int begun = 0;

    for (int i = 0; i < l->count; i++) {
        const struct rvmc_block *block = l->blocks + i;
        struct rvmc_layout one = rvmc_measures(block->type);

        if (!one.bytes || !block->length)
            continue;
        if (!one.solid || (block->length > 1 && one.high - one.low != one.bytes))
            return 0;
        if (begun && block->place + one.true_low != next)
            return 0;
        next = block->place + one.true_low + block->length * one.bytes;
        begun = 1;
    }
    return l->times <= 1 || l->stride * l->times == l->bytes;
}

/* --- lives --- */

static void change_uses(const struct rvmc_layout *l, void (*change)(MPI_Datatype type))
{
    for (int i = 0; i < l->count; i++)
        change(l->blocks[i].type);
    for (int i = 0; i < l->contents.types; i++)
        change(l->contents.type[i]);
}

void rvmc_use_type(MPI_Datatype type)
{
    struct rvmc_layout *l = rvmc_layout_of(type);

    if (l)
        l->uses++;
}

void rvmc_leave_type(MPI_Datatype type)
{
    struct rvmc_layout *l = rvmc_layout_of(type);

    if (!l || --l->uses)
        return;
    table[RVMC_MADE_PLACE(type)] = 0;
    change_uses(l, rvmc_leave_type);
    free(l);
}

/* Freed numbers are given again late, so that a handle that was freed is found out. */
static int free_place(void)
{
    static int next;
    struct rvmc_layout **larger;
    int more = room ? 2 * room : ROOM;

    for (int tried = 0; tried < room; tried++, next = (next + 1) % room)
        if (!table[next])
            return next;
    if (more > MOST_TYPES)
        return -1;
    larger = realloc(table, more * sizeof *table);
    if (!larger)
        return -1;
    memset(larger + room, 0, (more - room) * sizeof *table);
    table = larger;
    next = room;
    room = more;
    return next;
}

struct rvmc_layout *rvmc_new_contents(const char *call, int count, int combiner, const struct rvmc_part *parts, int addresses,
                                      const MPI_Aint *address, int types, const MPI_Datatype *type)
{
    int integers = 0, *integer;
    struct rvmc_layout *l;

    for (const struct rvmc_part *part = parts; part->from; part++)
        integers += part->count;
    l = malloc(sizeof *l + count * sizeof *l->blocks + addresses * sizeof *address + (types + integers) * sizeof *integer);
    if (!l) {
        rvmc_full_heap(call);
        return 0;
    }
    memset(l, 0, sizeof *l);
    l->times = 1;
    l->count = count;
    l->blocks = (struct rvmc_block *)(l + 1);
    l->contents = (struct rvmc_contents){combiner, integers, addresses, types, 0, (MPI_Aint *)(l->blocks + count), 0};
    l->contents.type = (MPI_Datatype *)(l->contents.address + addresses);
    l->contents.integer = integer = l->contents.type + types;
    for (int i = 0; i < addresses; i++)
        l->contents.address[i] = address[i];
    for (int i = 0; i < types; i++)
        l->contents.type[i] = type[i];
    for (const struct rvmc_part *part = parts; part->from; part++)
        for (int i = 0; i < part->count; i++)
            *integer++ = part->from[i];
    return l;
}

int rvmc_made_type(const char *call, struct rvmc_layout *l, MPI_Datatype *made)
{
    int place = free_place();

    *made = MPI_DATATYPE_NULL;
    if (place < 0) {
        free(l);
        return rvmc_no_room(call, MOST_TYPES, "datatypes");
    }
    set_sizes(l);
    set_bounds(l);
    l->solid = is_solid(l);
    l->handles = l->uses = 1;
    change_uses(l, rvmc_use_type);
    table[place] = l;
    *made = RVMC_MADE(place);
    rvmc_derived_begin();
    return MPI_SUCCESS;
}

/* --- arguments --- */

int rvmc_check_type(const char *call, const char *argument, MPI_Datatype type, int committed)
{
    struct rvmc_layout *l = rvmc_layout_of(type);
    const char *why = "the datatype isn't committed: MPI_Type_commit";

    if (l ? l->handles && (l->committed || !committed) : RVMC_SIZE_OF(type) || (!committed && RVMC_KIND_OF(type) == RVMC_MARK))
        return MPI_SUCCESS;
    if (!l || !l->handles)
        why = type == MPI_DATATYPE_NULL ? "the datatype is MPI_DATATYPE_NULL" : "%d is no datatype, or it was freed";
    return rvmc_trapped(rvmc_raise(call, MPI_COMM_WORLD, MPI_ERR_TYPE, argument, why, (long)type));
}

int rvmc_check_argument(const char *call, const char *argument, int ok, long value)
{
    return ok ? MPI_SUCCESS : rvmc_trapped(rvmc_raise(call, MPI_COMM_WORLD, MPI_ERR_ARG, argument, "%d is out of range", value));
}

int rvmc_check_count(const char *call, const char *argument, long count)
{
    return count >= 0 ? MPI_SUCCESS
         : rvmc_trapped(rvmc_raise(call, MPI_COMM_WORLD, MPI_ERR_COUNT, argument, "count %d is negative", count));
}

int MPI_Type_commit(MPI_Datatype *type)
{
    struct rvmc_layout *l = rvmc_layout_of(*type);
    int error = rvmc_check_type("MPI_Type_commit", "datatype", *type, 0);

    if (l && !error)
        l->committed = 1;
    return error;
}

/* A basic datatype can't be freed. */
int MPI_Type_free(MPI_Datatype *type)
{
    struct rvmc_layout *l = rvmc_layout_of(*type);
    int error = rvmc_check_type("MPI_Type_free", "datatype", *type, 0);

    if (error)
        return error;
    if (!l)
        return rvmc_trapped(rvmc_raise("MPI_Type_free", MPI_COMM_WORLD, MPI_ERR_TYPE, "datatype",
                                       "a basic datatype can't be freed"));
    if (l->handles == 1 && rvmc_attributes_of_types)
        error = rvmc_attributes_of_types(*type, MPI_DATATYPE_NULL);
    if (error)
        return error;
    l->handles--;
    rvmc_leave_type(*type);
    *type = MPI_DATATYPE_NULL;
    return MPI_SUCCESS;
}
