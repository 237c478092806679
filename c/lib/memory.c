/* memory.c: tells where the heap had no room for the first time, for a program that doesn't ask writes behind a null
   pointer next. rvmc-cc links these in the place of heap.c's functions, which they call; under --check those of check_heap
   stand there. The C library's own calls aren't in the table of places. */
#include <errno.h>
#include <malloc.h>
#include <stdlib.h>
#include <string.h>
#include "call.h"
#include "heap.h"

/* A program may have its own. */
#define WEAK __attribute__((weak))

void *__real_malloc(size_t size);
void *__real_calloc(size_t count, size_t size);
void *__real_realloc(void *old, size_t size);
void *__real_memalign(size_t align, size_t size);
int __real_posix_memalign(void **place, size_t align, size_t size);

/* What the heap gave to the program's call, if anything. */
RVMC_INLINE void *told(void *got, const char *call, size_t count, size_t size)
{
    if (!got)
        rvmc_tell_no_room(call, count, size, 0, __builtin_return_address(0));
    return got;
}

void *__wrap_malloc(size_t size)
{
    return told(__real_malloc(size), "malloc", 1, size);
}

void *__wrap_calloc(size_t count, size_t size)
{
    return told(__real_calloc(count, size), "calloc", count, size);
}

void *__wrap_realloc(void *old, size_t size)
{
    return told(__real_realloc(old, size), "realloc", 1, size);
}

void *__wrap_reallocarray(void *old, size_t count, size_t size)
{
    if (size && count > (size_t)-1 / size) {
        errno = ENOMEM;
        return told(0, "reallocarray", count, size);
    }
    return told(__real_realloc(old, count * size), "reallocarray", count, size);
}

/* An alignment that is no power of two isn't refused for want of room. */
static void *aligned(const char *call, size_t align, size_t size, const void *behind)
{
    void *got = __real_memalign(align, size);

    if (!got && errno == ENOMEM)
        rvmc_tell_no_room(call, 1, size, align, behind);
    return got;
}

void *__wrap_memalign(size_t align, size_t size)
{
    return aligned("memalign", align, size, __builtin_return_address(0));
}

void *__wrap_aligned_alloc(size_t align, size_t size)
{
    return aligned("aligned_alloc", align, size, __builtin_return_address(0));
}

int __wrap_posix_memalign(void **place, size_t align, size_t size)
{
    int error = __real_posix_memalign(place, align, size);

    if (error == ENOMEM)
        rvmc_tell_no_room("posix_memalign", 1, size, align, __builtin_return_address(0));
    return error;
}

static char *copied(char *to, const char *from, size_t length)
{
    if (to) {
        memcpy(to, from, length);
        to[length] = 0;
    }
    return to;
}

WEAK char *strdup(const char *text)
{
    size_t length = strlen(text);

    return copied(told(__real_malloc(length + 1), "strdup", 1, length + 1), text, length);
}

WEAK char *strndup(const char *text, size_t most)
{
    size_t length = strnlen(text, most);

    return copied(told(__real_malloc(length + 1), "strndup", 1, length + 1), text, length);
}
