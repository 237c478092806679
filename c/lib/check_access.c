/* check_access.c: accesses that check_stubs.S doesn't know to be right, and the list of the buffers of active requests. */
#include <stdlib.h>
#include <string.h>
#include "checked.h"

/* What rvmc-cc adds to each stack for these functions (CHECK_STACK), but for what the last access needs itself. */
enum { SPARE = 1536, REGIONS_AT_FIRST = 16 };

extern char __heap_start[];

/* Below it a stack is nearly full; each hart finds out at its first access. */
_Thread_local unsigned long rvmc_check_stack_end = -1UL;

/* What the stubs compare an address with: a range in which all active buffers are, the heap's start, the block that was
   found last, in whole 8s, and how malloc leaves memory. */
unsigned long rvmc_check_watched, rvmc_check_watched_length;
unsigned long rvmc_check_heap = (unsigned long)__heap_start;
unsigned long rvmc_check_block, rvmc_check_block_length;
extern const unsigned long rvmc_check_fresh;

static struct rvmc_region *regions;
static int count, room;

/* --- active buffers --- */

static unsigned end_of(const struct rvmc_region *r)
{
    return r->low + r->stride * (r->count - 1) + r->length;
}

/* An access may begin before a buffer and reach into it, by 16 bytes at most. */
static void watch(void)
{
    unsigned long low = -1UL, high = 0;

    for (int i = 0; i < count; i++) {
        low = regions[i].low < low ? regions[i].low : low;
        high = end_of(regions + i) > high ? end_of(regions + i) : high;
    }
    rvmc_check_watched = (low & ~15UL) - 16;
    rvmc_check_watched_length = count ? high - rvmc_check_watched : 0;
}

void rvmc_region_add(const struct rvmc_record *record, const struct rvmc_region *region)
{
    if (count == room) {
        int more = room ? 2 * room : REGIONS_AT_FIRST;
        struct rvmc_region *larger = rvmc_check_take(more * (long)sizeof *larger), *old = regions;

        if (!larger)
            return;
        if (count)
            memcpy(larger, old, count * sizeof *larger);
        regions = larger;
        room = more;
        rvmc_check_give_back(old);
    }
    regions[count] = *region;
    regions[count++].of = record;
    watch();
}

/* Those of a record: its buffers, the variable that has its request, or both. */
void rvmc_regions_drop(const struct rvmc_record *record, int buffers, int variable)
{
    int left = 0;

    for (int i = 0; i < count; i++)
        if (regions[i].of != record || !(regions[i].is_variable ? variable : buffers))
            regions[left++] = regions[i];
    count = left;
    watch();
}

/* A partition that has arrived is the program's again. */
void rvmc_region_drop_partition(const struct rvmc_record *record, int partition)
{
    int left = 0;

    for (int i = 0; i < count; i++)
        if (regions[i].of != record || regions[i].partition != partition)
            regions[left++] = regions[i];
    count = left;
    watch();
}

/* Whether bytes of a piece are among those of an access. */
static int meets(const struct rvmc_region *r, unsigned low, unsigned length)
{
    unsigned first;

    if (low + length <= r->low || low >= end_of(r))
        return 0;
    if (r->count == 1 || low < r->low)
        return 1;
    first = (low - r->low) / r->stride;
    if (low - r->low - first * r->stride < r->length)
        return 1;
    return first + 1 < r->count && r->low + (first + 1) * r->stride < low + length;
}

const struct rvmc_region *rvmc_region_hit(unsigned low, unsigned length, int is_written)
{
    for (int i = 0; i < count && length; i++)
        if ((is_written || regions[i].is_received) && meets(regions + i, low, length))
            return regions + i;
    return 0;
}

static void tell_active(const struct rvmc_region *hit, const char *by, unsigned behind, int is_written)
{
    const char *call = rvmc_check_call(hit->of->call, hit->of->behind), *done = is_written ? "written" : "read";
    int partition = hit->partition - 1;

    if (partition < 0)
        RVMC_TELL(behind, hit->of->behind, "the buffer of %s is %s %s before its MPI_Wait", call, done, by);
    else if (hit->is_received)
        RVMC_TELL(behind, hit->of->behind, "partition %d of the buffer of %s is %s %s before its MPI_Parrived or MPI_Wait",
                  partition, call, done, by);
    else
        RVMC_TELL(behind, hit->of->behind, "partition %d of the buffer of %s, ready since %s, is %s %s before its MPI_Wait",
                  partition, call, rvmc_check_line(hit->ready), done, by);
}

/* --- accesses --- */

void rvmc_check_forget_block(void)
{
    rvmc_check_block_length = 0;
}

void rvmc_check_know_block(unsigned at, unsigned size)
{
    rvmc_check_block_length = 0;
    rvmc_check_block = at;
    rvmc_check_block_length = size & ~7U;
}

/* Whether the hart has used up its stack; at its first access it finds out where that ends. */
static void look_at_stack(unsigned long pointer, unsigned behind)
{
    unsigned long size = RVMC_NUMBER(rvmc_stack), hart = (pointer - RVMC_NUMBER(rvmc_stacks)) / size;

    if (rvmc_check_stack_end == -1UL)
        rvmc_check_stack_end = RVMC_NUMBER(rvmc_stacks) + hart * size + SPARE;
    if (pointer >= rvmc_check_stack_end)
        return;
    rvmc_check_stack_end = 0;
    RVMC_TELL(behind, 0, "the stack of hart %d is full at %s: --stack gives more", (long)rvmc_hart, rvmc_check_line(behind));
}

/* Whether the hart shall trap for the access. While another hart changes a list, nothing can be said. */
int rvmc_check_access(unsigned long at, unsigned long size, unsigned long behind, int is_written, unsigned long stack)
{
    unsigned changes = rvmc_check_changes;
    const struct rvmc_region *hit;

    look_at_stack(stack, (unsigned)behind);
    if (changes & 1)
        return rvmc_told;
    hit = at < rvmc_check_watched + rvmc_check_watched_length ? rvmc_region_hit((unsigned)at, (unsigned)size, is_written) : 0;
    if (hit && changes == rvmc_check_changes && hit->is_variable) {
        rvmc_request_overwritten((unsigned)behind, hit->of, stack);
    } else if (hit && changes == rvmc_check_changes) {
        char by[64] = "at ";

        tell_active(hit, strncat(by, rvmc_check_line((unsigned)behind), sizeof by - 4), (unsigned)behind, is_written);
    } else if (at + size > rvmc_check_heap) {
        rvmc_heap_check(0, (unsigned)behind, (unsigned)at, (unsigned)size, is_written, size <= 8);
    }
    return rvmc_told;
}

void rvmc_check_range(const char *call, unsigned behind, const void *at, long size, int is_written)
{
    unsigned low = (unsigned)(unsigned long)at;
    const struct rvmc_region *hit;

    if (size <= 0 || !at)
        return;
    hit = rvmc_region_hit(low, (unsigned)size, is_written);
    if (hit && !hit->is_variable) {
        char by[96] = "by ";

        tell_active(hit, strncat(by, rvmc_check_call(call, behind), sizeof by - 4), behind, is_written);
    } else if ((unsigned long)at + (unsigned long)size > rvmc_check_heap) {
        rvmc_heap_check(rvmc_check_call(call, behind), behind, low, (unsigned)size, is_written, 0);
    }
}
