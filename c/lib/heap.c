/* heap.c: malloc and its kin, in the place of the C library's, which clear each block and look through all that are free.
   The heap is a row of blocks. Each begins with a head of 8 bytes, and what it gives stands behind that, at a multiple of
   16. No two blocks that are free are neighbors. They are in lists by size, but for the last, which belongs to the rest of
   memory behind it. Memory that nobody ever had is zero, so calloc needn't clear it.
   A program may have a malloc of its own, so these are weak. */
#include <errno.h>
#include <limits.h>
#include <malloc.h>
#include <stdint.h>
#include <stdlib.h>
#include <string.h>
#include <unistd.h>
#include "call.h"
#include "heap.h"
#include "places.h"
#include "say.h"
#include "system.h"

#define WEAK __attribute__((weak))

struct block {
    unsigned size;                                /* with the head: a multiple of 16, and 1 more where it is in use */
    unsigned before;                              /* the size of the block before it, 0 of the first */
    struct { unsigned next, previous; } list;     /* where it is free */
};
enum { HEAD = 8, UNIT = 16, USED = 1, MOST = 1048576, EXACT = 16, LISTS = 28, LEAST_STACK = 16384 };

extern char __heap_start[];
#define FIRST ((unsigned)RVMC_NUMBER(__heap_start) + HEAD)
#define END ((unsigned)RVMC_NUMBER(rvmc_memory))

/* The first block of each list, 0 where there is none; a bit for each list that has one; the bytes of all blocks, those of
   the last block, and the most that all blocks ever had. */
static unsigned lists[LISTS], filled, used, last, fresh;
#define TOP (FIRST + used)

static inline struct block *at(unsigned address)
{
    return (struct block *)(unsigned long)address;
}

static inline unsigned address_of(const struct block *b)
{
    return (unsigned)(unsigned long)b;
}

static inline unsigned size_of(const struct block *b)
{
    return b->size & ~(unsigned)USED;
}

static inline void *given(struct block *b)
{
    return (char *)b + HEAD;
}

/* --- one hart at a time, by the C library's lock (threads.c) --- */

struct __lock;
extern struct __lock __lock___libc_recursive_mutex;
void __retarget_lock_acquire_recursive(struct __lock *lock);
void __retarget_lock_release_recursive(struct __lock *lock);

static inline void lock(void)
{
    if (RVMC_NUMBER(rvmc_harts) > 1)
        __retarget_lock_acquire_recursive(&__lock___libc_recursive_mutex);
}

static inline void unlock(void)
{
    if (RVMC_NUMBER(rvmc_harts) > 1)
        __retarget_lock_release_recursive(&__lock___libc_recursive_mutex);
}

/* --- free blocks --- */

/* A list for each size up to 256, and behind them one for each power of two. */
static unsigned list_of(unsigned size)
{
    unsigned list = size / UNIT - 1;

    if (list < EXACT)
        return list;
    for (list = EXACT, size = (size - 1) >> 9; size; size >>= 1)
        list++;
    return list;
}

static void put_into_list(struct block *b)
{
    unsigned list = list_of(b->size), next = lists[list];

    b->list.next = next;
    b->list.previous = 0;
    if (next)
        at(next)->list.previous = address_of(b);
    lists[list] = address_of(b);
    filled |= 1U << list;
}

static void take_from_list(struct block *b)
{
    unsigned next = b->list.next, previous = b->list.previous;

    if (next)
        at(next)->list.previous = previous;
    if (previous) {
        at(previous)->list.next = next;
    } else {
        unsigned list = list_of(b->size);

        lists[list] = next;
        if (!next)
            filled &= ~(1U << list);
    }
}

/* Tells the block behind one how large that is. */
static void set_before(const struct block *b, unsigned size)
{
    unsigned behind = address_of(b) + size;

    if (behind == TOP)
        last = size;
    else
        at(behind)->before = size;
}

/* Makes a block free, together with its neighbors. */
static void release(struct block *b)
{
    unsigned size = size_of(b), behind = address_of(b) + size;

    if (behind != TOP && !(at(behind)->size & USED)) {
        take_from_list(at(behind));
        size += at(behind)->size;
    }
    b->size = size;
    if (b->before) {
        struct block *previous = at(address_of(b) - b->before);

        if (!(previous->size & USED)) {
            take_from_list(previous);
            size += previous->size;
            b = previous;
        }
    }
    b->size = size;
    if (address_of(b) + size == TOP) {
        last = b->before;
        used = address_of(b) - FIRST;
        return;
    }
    set_before(b, size);
    put_into_list(b);
}

/* Makes a block in use of a size, and what is left of it free. */
static void cut(struct block *b, unsigned whole, unsigned size)
{
    b->size = size | USED;
    if (whole == size)
        return;
    at(address_of(b) + size)->size = whole - size;
    at(address_of(b) + size)->before = size;
    release(at(address_of(b) + size));
}

/* --- blocks in use --- */

/* A block behind all others. */
static struct block *take_fresh(unsigned size)
{
    struct block *b = at(TOP);

    if (END - HEAD < TOP || END - HEAD - TOP < size)
        return 0;
    b->size = size | USED;
    b->before = last;
    last = size;
    used += size;
    if (used > fresh)
        fresh = used;
    return b;
}

static struct block *find(unsigned size)
{
    unsigned list = list_of(size);

    for (unsigned left = filled >> list; left; left >>= 1, list++)
        for (unsigned place = left & 1 ? lists[list] : 0; place; place = at(place)->list.next)
            if (at(place)->size >= size)
                return at(place);
    return 0;
}

/* A block with room for so many bytes, or 0. */
static struct block *take(size_t bytes)
{
    unsigned size = ((unsigned)bytes + HEAD + UNIT - 1) & ~(unsigned)(UNIT - 1);
    struct block *b;

    if (bytes >= MOST)
        return 0;
    b = find(size);
    if (!b)
        return take_fresh(size);
    take_from_list(b);
    cut(b, b->size, size);
    return b;
}

static void *checked(struct block *b)
{
    if (b)
        return given(b);
    errno = ENOMEM;
    return 0;
}

/* The block of what malloc gave. Another pointer is a trap, in the function that was given it. */
RVMC_INLINE struct block *block_of(void *memory, const char *call)
{
    unsigned place = address_of(memory) - HEAD;
    struct block *b = at(place);

    if (!((unsigned long)memory % UNIT) && (unsigned long)memory < END && place >= FIRST && place < TOP && b->size & USED &&
        size_of(b) <= TOP - place && size_of(b) == (place + size_of(b) == TOP ? last : at(place + size_of(b))->before))
        return b;
    rvmc_say("%s of %x, which malloc didn't give, or which was freed before", call, (long)memory);
    __asm__ volatile("ebreak");
    return 0;
}

WEAK void *malloc(size_t size)
{
    struct block *b;

    lock();
    b = take(size);
    unlock();
    return checked(b);
}

WEAK void free(void *memory)
{
    struct block *b;

    if (!memory)
        return;
    lock();
    b = block_of(memory, "free");
    if (b)
        release(b);
    unlock();
}

WEAK void cfree(void *memory)
{
    free(memory);
}

WEAK void *calloc(size_t count, size_t size)
{
    size_t all = count * size;
    unsigned before;
    struct block *b;

    if (size && all / size != count)
        return checked(0);
    lock();
    before = FIRST + fresh;
    b = take(all);
    unlock();
    if (b && address_of(b) + HEAD < before) {
        size_t known = before - (address_of(b) + HEAD);

        memset(given(b), 0, all < known ? all : known);
    }
    return checked(b);
}

/* Makes a block larger where it stands. */
static int grow(struct block *b, unsigned size)
{
    unsigned had = size_of(b), behind = address_of(b) + had;

    if (behind == TOP) {
        if (END - HEAD - TOP < size - had)
            return 0;
        used += size - had;
        fresh = used > fresh ? used : fresh;
        last = size;
        b->size = size | USED;
        return 1;
    }
    if (at(behind)->size & USED || had + at(behind)->size < size)
        return 0;
    take_from_list(at(behind));
    set_before(b, had + at(behind)->size);
    cut(b, had + at(behind)->size, size);
    return 1;
}

static struct block *resize(struct block *b, size_t bytes)
{
    unsigned size = ((unsigned)bytes + HEAD + UNIT - 1) & ~(unsigned)(UNIT - 1), had = size_of(b);
    struct block *moved;

    if (bytes >= MOST)
        return 0;
    if (size <= had) {
        cut(b, had, size);
        return b;
    }
    if (grow(b, size))
        return b;
    moved = take(bytes);
    if (moved) {
        memcpy(given(moved), given(b), had - HEAD);
        release(b);
    }
    return moved;
}

WEAK void *realloc(void *old, size_t size)
{
    struct block *b = 0;

    if (!old)
        return malloc(size);
    if (!size) {
        free(old);
        return 0;
    }
    lock();
    b = block_of(old, "realloc");
    if (b)
        b = resize(b, size);
    unlock();
    return checked(b);
}

/* --- blocks at other multiples --- */

/* What stands before the multiple becomes a free block. */
static struct block *take_aligned(size_t align, size_t bytes)
{
    struct block *b = bytes < MOST && align < MOST ? take(bytes + align) : 0, *inner;
    unsigned whole, front;

    if (!b)
        return 0;
    whole = size_of(b);
    front = -(address_of(b) + HEAD) & (unsigned)(align - 1);
    if (front) {
        inner = at(address_of(b) + front);
        inner->size = (whole - front) | USED;
        inner->before = front;
        set_before(inner, whole - front);
        b->size = front;
        release(b);
        b = inner;
        whole -= front;
    }
    cut(b, whole, ((unsigned)bytes + HEAD + UNIT - 1) & ~(unsigned)(UNIT - 1));
    return b;
}

WEAK void *memalign(size_t align, size_t size)
{
    struct block *b;

    if (!align || align & (align - 1)) {
        errno = EINVAL;
        return 0;
    }
    lock();
    b = align <= UNIT ? take(size) : take_aligned(align, size);
    unlock();
    return checked(b);
}

WEAK void *aligned_alloc(size_t align, size_t size)
{
    return memalign(align, size);
}

WEAK int posix_memalign(void **place, size_t align, size_t size)
{
    int before = errno;
    void *found;

    if (align < sizeof(void *) || align & (align - 1))
        return EINVAL;
    found = memalign(align, size);
    errno = before;
    if (!found)
        return ENOMEM;
    *place = found;
    return 0;
}

/* --- what else programs ask --- */

WEAK size_t malloc_usable_size(void *memory)
{
    return memory ? size_of(at(address_of(memory) - HEAD)) - HEAD : 0;
}

/* Bytes of the blocks that are in use. */
static unsigned in_use(void)
{
    unsigned sum = 0;

    for (unsigned place = FIRST; place != TOP; place += size_of(at(place)))
        if (at(place)->size & USED)
            sum += at(place)->size & ~(unsigned)USED;
    return sum;
}

WEAK struct mallinfo mallinfo(void)
{
    struct mallinfo info = {0};

    info.arena = used;
    info.uordblks = in_use();
    info.fordblks = used - info.uordblks;
    return info;
}

/* Memory for a program that has a heap of its own: a block that grows while it is the last. */
WEAK void *sbrk(ptrdiff_t more)
{
    static unsigned begin, end;
    struct block *b;
    void *found = (void *)-1;

    lock();
    if (!begin || ((begin - HEAD + last) != TOP) || !(at(begin - HEAD)->size & USED)) {
        b = take_fresh(UNIT);
        begin = end = b ? address_of(b) + HEAD : 0;
    }
    b = at(begin - HEAD);
    if (begin && more > -MOST && more < MOST && (long)end + more >= (long)begin) {
        unsigned size = (end + (unsigned)more - begin + HEAD + UNIT - 1) & ~(unsigned)(UNIT - 1);

        if (size <= size_of(b) || grow(b, size)) {
            found = (void *)(unsigned long)end;
            end += (unsigned)more;
        }
    }
    unlock();
    if (found == (void *)-1)
        errno = ENOMEM;
    return found;
}

/* --- where there is no room --- */

/* A number of bytes may be above what a long has. */
static void put_size(size_t size)
{
    if (size > LONG_MAX)
        rvmc_put("%d%d", (long)(size / 10), (long)(size % 10));
    else
        rvmc_put("%d", (long)size);
}

/* Whether more memory gives the bytes that are missing, or smaller stacks, or nothing. Of more memory the stacks may take
   their share first. */
static void put_help(size_t bytes)
{
    long harts = RVMC_NUMBER(rvmc_harts), stack = RVMC_NUMBER(rvmc_stack) - RVMC_NUMBER(rvmc_spare_stack);
    long room = END - HEAD > TOP ? (long)(END - HEAD - TOP) : 0, missing = (long)((bytes + HEAD + UNIT - 1) & -UNIT) - room;
    long more = MOST - END, less = stack > LEAST_STACK ? harts * (stack - LEAST_STACK) : 0;
    long grown = harts * (RVMC_NUMBER(rvmc_usual_stack) - stack);

    if (bytes > MOST) {
        rvmc_put(": a rank has at most %d bytes", (long)MOST);
    } else if (missing + grown <= more) {
        rvmc_put(": give --memory %d", (END + missing + grown + 4095) & -4096);
    } else if (missing <= more + less) {
        stack = (harts * stack + more - missing) / harts & -1024;
        rvmc_put(more ? ": give --memory 1048576 --stack %d" : ": give --stack %d", stack);
    } else {
        rvmc_put(": a rank has at most %d bytes, and its heap %d, of which %d are in use", (long)MOST,
                 MOST - (long)FIRST, (long)in_use());
    }
}

void rvmc_tell_no_room(const char *call, size_t count, size_t size, size_t beside, const void *behind)
{
    static int before;
    size_t all = count * size;
    const struct rvmc_place *place = before || !count || !size ? 0 : rvmc_place_of(behind);

    if (!place)
        return;
    before = 1;
    rvmc_begin_line();
    rvmc_put("%s:%d: the heap has no room for %s of ", rvmc_file_of(place), (long)place->line, call);
    if (all / size != count) {
        put_size(count);
        rvmc_put(" times ");
        put_size(size);
        rvmc_put(" bytes: a rank has at most %d bytes\n", (long)MOST);
        return;
    }
    put_size(all);
    rvmc_put(" bytes");
    if (all > LONG_MAX)
        rvmc_put(": as a signed number that is %d", (long)all);
    else
        put_help(all + beside);
    rvmc_put("\n");
}
