/* check_heap.c: malloc and its kin under --check. Around each block are red zones, a block that was freed stays out of use
   for a while, and fresh memory has a pattern, by which a read of it is known as long as nobody has written it. Blocks are
   kept in one array by their address. rvmc-cc links these in the place of the C library's, which they call. */
#include <errno.h>
#include <stdlib.h>
#include <string.h>
#include "checked.h"
#include "heap.h"

/* Bytes before and behind each block, and how many freed blocks and bytes of them are kept at most. */
enum { ZONE = 32, KEPT_BLOCKS = 256, KEPT_BYTES = 65536, BLOCKS_AT_FIRST = 64 };

/* How malloc leaves memory: twice the same word, which no text and hardly a number has. */
#define WORD 0xfbf1f9fdU
const unsigned long rvmc_check_fresh = (unsigned long)WORD << 32 | WORD;

enum { MALLOC, CALLOC, REALLOC, REALLOCARRAY, STRDUP, STRNDUP, ALIGNED_ALLOC, MEMALIGN, POSIX_MEMALIGN };
static const char *const givers[] = {
    "malloc", "calloc", "realloc", "reallocarray", "strdup", "strndup", "aligned_alloc", "memalign", "posix_memalign"
};

struct block {
    unsigned at, size, given, freed;              /* where it is; the calls that gave it and took it back */
    unsigned real;                                /* what the C library's malloc gave */
    unsigned char giver, is_freed;
    unsigned when;                                /* the number of its free */
};
static struct block *blocks;
static int count, room;
static unsigned frees, kept_bytes, kept_blocks;

void *__real_malloc(size_t size);
void __real_free(void *block);

void *rvmc_check_take(long size)
{
    return __real_malloc((size_t)size);
}

void rvmc_check_give_back(void *memory)
{
    if (memory)
        __real_free(memory);
}

/* --- the table --- */

/* The number of blocks that begin at an address or below it. */
static int up_to(unsigned at)
{
    int low = 0, high = count;

    while (low < high) {
        int middle = (low + high) / 2;

        if (blocks[middle].at <= at)
            low = middle + 1;
        else
            high = middle;
    }
    return low;
}

static struct block *block_at(unsigned at)
{
    int n = up_to(at);

    return n && blocks[n - 1].at == at ? blocks + n - 1 : 0;
}

static int make_room(void)
{
    int more = room ? 2 * room : BLOCKS_AT_FIRST;
    struct block *larger, *old = blocks;

    if (count < room)
        return 1;
    larger = __real_malloc(more * sizeof *larger);
    if (!larger)
        return 0;
    if (count)
        memcpy(larger, old, count * sizeof *larger);
    blocks = larger;
    room = more;
    if (old)
        __real_free(old);
    return 1;
}

static void insert(struct block block)
{
    int n = up_to(block.at);

    memmove(blocks + n + 1, blocks + n, (count - n) * sizeof *blocks);
    blocks[n] = block;
    count++;
}

static void remove_block(struct block *block)
{
    __real_free((void *)(unsigned long)block->real);
    memmove(block, block + 1, (blocks + --count - block) * sizeof *block);
}

/* Gives the block back that was freed first. Returns whether there was one. */
static int release_oldest(void)
{
    struct block *oldest = 0;

    for (struct block *b = blocks; b < blocks + count; b++)
        if (b->is_freed && (!oldest || b->when < oldest->when))
            oldest = b;
    if (!oldest)
        return 0;
    kept_bytes -= oldest->size;
    kept_blocks--;
    remove_block(oldest);
    return 1;
}

/* --- what is told --- */

static const char *giver_of(const struct block *b)
{
    return rvmc_check_call(givers[b->giver], b->given);
}

static void tell_block(const struct block *b, const char *who, unsigned behind, const char *does, const char *where)
{
    RVMC_TELL(behind, b->given, "%s %s %s the %d bytes of %s", who, does, where, (long)b->size, giver_of(b));
}

/* The block whose red zone or bytes are met: the one before, unless the next is nearer. */
static const struct block *nearest(int n, unsigned at, unsigned size)
{
    if (n && at < blocks[n - 1].at + blocks[n - 1].size + ZONE)
        return blocks + n - 1;
    if (n < count && at + size + ZONE > blocks[n].at)
        return blocks + n;
    return n ? blocks + n - 1 : 0;
}

/* Where memory is as malloc left it: of an element all of its bytes, and the word around one that is shorter. */
static int is_fresh(unsigned at, unsigned size)
{
    const unsigned *word = (const unsigned *)(unsigned long)(at & ~3U);

    return *word == WORD && (size <= 4 || word[1] == WORD);
}

void rvmc_heap_check(const char *who, unsigned behind, unsigned at, unsigned size, int is_written, int is_element)
{
    unsigned changes = rvmc_check_changes;
    int n = up_to(at);
    const struct block *b = n ? blocks + n - 1 : 0;
    const char *does = is_written ? "writes" : "reads";

    if (b && at - b->at + size <= b->size && !b->is_freed) {
        if (is_element && !is_written && is_fresh(at, size))
            RVMC_WARN(behind, b->given, "%s reads memory that was never written, of the %d bytes of %s",
                      who ? who : rvmc_check_line(behind), (long)b->size, giver_of(b));
        if (is_element)
            rvmc_check_know_block(b->at, b->size);
        return;
    }
    if (changes != rvmc_check_changes)
        return;
    b = nearest(n, at, size);
    who = who ? who : rvmc_check_line(behind);
    if (!b)
        RVMC_TELL(behind, 0, "%s %s at %x, where malloc has given nothing", who, does, (long)at);
    else if (b->is_freed && at < b->at + b->size && at + size > b->at)
        RVMC_TELL(behind, b->given, "%s %s memory of %s, which free at %s took back", who, does, giver_of(b),
                  rvmc_check_line(b->freed));
    else
        tell_block(b, who, behind, does, at < b->at ? "before the start of" : "past the end of");
}

/* Data to be sent of which nobody has written any. A correct program may send such, so it isn't a trap. */
void rvmc_heap_check_written(const char *who, unsigned behind, unsigned at, unsigned size)
{
    int n = up_to(at);
    const struct block *b = n ? blocks + n - 1 : 0;

    if (!b || b->is_freed || at - b->at + size > b->size)
        return;
    for (unsigned i = 0; i + 4 <= size; i += 4)
        if (!is_fresh(at + i, 4))
            return;
    RVMC_WARN(behind, b->given, "%s reads memory that was never written, of the %d bytes of %s", who, (long)b->size,
              giver_of(b));
}

/* What the C library or MPI has written behind a block isn't seen as it happens. */
static void look_at_zones(const struct block *b, const char *call, unsigned behind)
{
    const char *low = (const char *)(unsigned long)(b->at - ZONE), *high = (const char *)(unsigned long)(b->at + b->size);

    for (int i = 0; i < ZONE; i++) {
        char expected = (char)(WORD >> 8 * (i % 4));

        if (low[i] == expected && high[i] == expected)
            continue;
        RVMC_TELL(behind, b->given, "%s: the library wrote %s the %d bytes of %s", rvmc_check_call(call, behind),
                  high[i] == expected ? "before the start of" : "past the end of", (long)b->size, giver_of(b));
        return;
    }
}

/* --- malloc and its kin --- */

static void fill(char *at, unsigned long size)
{
    for (unsigned long i = 0; i < size; i++)
        at[i] = (char)(WORD >> 8 * (i % 4));
}

static void tell_no_room(size_t number, size_t size, size_t align, int giver, unsigned behind)
{
    rvmc_tell_no_room(givers[giver], number, size, 2 * ZONE + align, (const void *)(unsigned long)behind);
}

static void *real_block(size_t size, size_t align)
{
    void *real;

    if (size > (size_t)RVMC_NUMBER(rvmc_memory) || align > (size_t)RVMC_NUMBER(rvmc_memory) || !make_room())
        return 0;
    do
        real = __real_malloc(size + align + 2 * ZONE);
    while (!real && release_oldest());
    return real;
}

/* Whether the program itself has made a call: its text stands below all of the library's, of which this is linked first. */
static int is_programs(unsigned behind)
{
    extern char rvmc_check_slowly[];

    return behind < (unsigned long)rvmc_check_slowly;
}

/* A block between two red zones, at a multiple of what is asked for. What the library hands to a function of the program, as
   to an operation, may have gaps that nobody has written. */
static void *give(size_t size, size_t align, int giver, unsigned behind)
{
    unsigned long real, at;

    rvmc_check_lock();
    real = (unsigned long)real_block(size, align);
    at = real + ZONE;
    if (real) {
        at = (at + align - 1) & ~(align - 1);
        fill((char *)at - ZONE, ZONE);
        if (giver == CALLOC || !is_programs(behind))
            memset((char *)at, 0, size);
        else
            fill((char *)at, size);
        fill((char *)at + size, ZONE);
        insert((struct block){(unsigned)at, (unsigned)size, behind, 0, (unsigned)real, (unsigned char)giver, 0, 0});
    } else {
        tell_no_room(1, size, align, giver, behind);
    }
    rvmc_check_unlock();
    if (!real)
        errno = ENOMEM;
    return real ? (void *)at : 0;
}

/* A block that was freed stays in the table, until there are too many. */
static void take_back(void *memory, const char *call, unsigned behind)
{
    struct block *b;

    if (!memory)
        return;
    rvmc_check_lock();
    b = block_at((unsigned)(unsigned long)memory);
    if (!b) {
        RVMC_TELL(behind, 0, "%s of %x, which malloc didn't give", rvmc_check_call(call, behind), (long)memory);
    } else if (b->is_freed) {
        RVMC_TELL(behind, b->given, "%s of memory of %s, which free at %s took back before", rvmc_check_call(call, behind),
                  giver_of(b), rvmc_check_line(b->freed));
    } else {
        const struct rvmc_region *hit = rvmc_region_hit(b->at, b->size, 1);

        look_at_zones(b, call, behind);
        if (hit && !hit->is_variable)
            RVMC_TELL(behind, hit->of->behind, "the buffer of %s is freed at %s before its MPI_Wait",
                      rvmc_check_call(hit->of->call, hit->of->behind), rvmc_check_line(behind));
        b->is_freed = 1;
        b->freed = behind;
        b->when = ++frees;
        kept_bytes += b->size;
        kept_blocks++;
        rvmc_check_forget_block();
        while (kept_bytes > KEPT_BYTES || kept_blocks > KEPT_BLOCKS)
            release_oldest();
    }
    rvmc_check_unlock();
}

void *__wrap_malloc(size_t size)
{
    return give(size, 16, MALLOC, RVMC_BEHIND);
}

void __wrap_free(void *memory)
{
    take_back(memory, "free", RVMC_BEHIND);
}

/* The bytes of so many elements, or 0 where there are more than a number has. */
static int product(size_t number, size_t size, size_t *all, int giver, unsigned behind)
{
    *all = number * size;
    if (!size || *all / size == number)
        return 1;
    tell_no_room(number, size, 16, giver, behind);
    errno = ENOMEM;
    return 0;
}

void *__wrap_calloc(size_t number, size_t size)
{
    size_t all;

    return product(number, size, &all, CALLOC, RVMC_BEHIND) ? give(all, 16, CALLOC, RVMC_BEHIND) : 0;
}

static void *resize(void *old, size_t size, int giver, unsigned behind)
{
    struct block *b = old ? block_at((unsigned)(unsigned long)old) : 0;
    unsigned before = b ? b->size : 0;
    void *memory;

    if (old && (!b || b->is_freed)) {
        take_back(old, givers[giver], behind);
        return 0;
    }
    memory = give(size, 16, giver, behind);
    if (memory && old) {
        memcpy(memory, old, before < size ? before : size);
        take_back(old, givers[giver], behind);
    }
    return memory;
}

void *__wrap_realloc(void *old, size_t size)
{
    return resize(old, size, REALLOC, RVMC_BEHIND);
}

void *__wrap_reallocarray(void *old, size_t number, size_t size)
{
    size_t all;

    return product(number, size, &all, REALLOCARRAY, RVMC_BEHIND) ? resize(old, all, REALLOCARRAY, RVMC_BEHIND) : 0;
}

char *rvmc_heap_copy(const char *text, size_t length, int is_part, unsigned behind)
{
    char *copy = give(length + 1, 16, is_part ? STRNDUP : STRDUP, behind);

    if (copy) {
        memcpy(copy, text, length);
        copy[length] = 0;
    }
    return copy;
}

/* A multiple that is no power of two is refused. */
static void *aligned(size_t align, size_t size, int giver, unsigned behind)
{
    if (align && !(align & (align - 1)))
        return give(size, align < 16 ? 16 : align, giver, behind);
    errno = EINVAL;
    return 0;
}

void *__wrap_aligned_alloc(size_t align, size_t size)
{
    return aligned(align, size, ALIGNED_ALLOC, RVMC_BEHIND);
}

void *__wrap_memalign(size_t align, size_t size)
{
    return aligned(align, size, MEMALIGN, RVMC_BEHIND);
}

int __wrap_posix_memalign(void **place, size_t align, size_t size)
{
    void *found;

    if (align < sizeof(void *) || align & (align - 1))
        return EINVAL;
    found = aligned(align, size, POSIX_MEMALIGN, RVMC_BEHIND);
    if (found)
        *place = found;
    return found ? 0 : ENOMEM;
}

void rvmc_heap_at_the_end(unsigned behind)
{
    for (struct block *b = blocks; b < blocks + count; b++)
        if (!b->is_freed)
            look_at_zones(b, "MPI_Finalize", behind);
}

/* Whether a live block has a word, at another place than one. */
int rvmc_heap_has(long word, const void *but)
{
    for (const struct block *b = blocks; b < blocks + count; b++) {
        const long *at = (const long *)(unsigned long)b->at;

        for (long i = 0; !b->is_freed && i < b->size / 8; i++)
            if (at[i] == word && at + i != but)
                return 1;
    }
    return 0;
}
