/* Preloaded into a program, refuses it one thing: the k-th request for memory, or some in a row, or the k-th read or
   write, which fails, or moves one byte alone. What, and which, is told by the environment:

   REFUSE_MEMORY            the number of the request for memory, from 1
   REFUSE_IN_A_ROW          how many requests are refused from that one on; without it that one alone
   FAIL_READ, FAIL_WRITE    the number of the read of standard input, and of the write to standard output or error
   SHORT_READ, SHORT_WRITE  the same, of one that moves a byte
   ENDLESS_READ             a number of reads: each read of standard input gives one byte 0, for ever
   REFUSE_TOLD              a file descriptor that gets a letter for each refusal, and for each read past that number

   tests/checks/refused compiles and uses it. */
#define _GNU_SOURCE
#include <dlfcn.h>
#include <errno.h>
#include <stdlib.h>
#include <sys/types.h>
#include <unistd.h>

extern void *__libc_malloc(size_t);
extern void *__libc_calloc(size_t, size_t);
extern void *__libc_realloc(void *, size_t);
extern void *__libc_memalign(size_t, size_t);

static long memory, in_a_row, told = -1, endless, fail_read, fail_write, short_read, short_write;
static long requests, reads, writes;
static ssize_t (*real_read)(int, void *, size_t);
static ssize_t (*real_write)(int, const void *, size_t);

static long number(const char *name)
{
    const char *text = getenv(name);
    return text ? atol(text) : 0;
}

__attribute__((constructor)) static void begin(void)
{
    real_read = (ssize_t(*)(int, void *, size_t))dlsym(RTLD_NEXT, "read");
    real_write = (ssize_t(*)(int, const void *, size_t))dlsym(RTLD_NEXT, "write");
    endless = number("ENDLESS_READ");
    told = getenv("REFUSE_TOLD") ? number("REFUSE_TOLD") : -1;
    fail_read = number("FAIL_READ");
    fail_write = number("FAIL_WRITE");
    short_read = number("SHORT_READ");
    short_write = number("SHORT_WRITE");
    in_a_row = getenv("REFUSE_IN_A_ROW") ? number("REFUSE_IN_A_ROW") : 1;
    memory = number("REFUSE_MEMORY");
}

static void tell(char letter)
{
    if (told >= 0)
        real_write((int)told, &letter, 1);
}

/* whether this request is one that is refused */
static int is_refused(void)
{
    if (!memory)
        return 0;
    long past = __atomic_add_fetch(&requests, 1, __ATOMIC_SEQ_CST) - memory;
    if (past < 0 || past >= in_a_row)
        return 0;
    tell('m');
    errno = ENOMEM;
    return 1;
}

void *malloc(size_t size)
{
    return is_refused() ? NULL : __libc_malloc(size);
}

void *calloc(size_t count, size_t size)
{
    return is_refused() ? NULL : __libc_calloc(count, size);
}

void *realloc(void *old, size_t size)
{
    return is_refused() ? NULL : __libc_realloc(old, size);
}

void *aligned_alloc(size_t alignment, size_t size)
{
    return is_refused() ? NULL : __libc_memalign(alignment, size);
}

int posix_memalign(void **place, size_t alignment, size_t size)
{
    if (is_refused())
        return ENOMEM;
    *place = __libc_memalign(alignment, size);
    return *place ? 0 : ENOMEM;
}

ssize_t read(int file, void *bytes, size_t count)
{
    if (file == 0) {
        reads++;
        if (endless) {
            if (reads > endless)
                tell('e');
            *(char *)bytes = 0;
            return 1;
        }
        if (reads == fail_read) {
            tell('r');
            errno = EIO;
            return -1;
        }
        if (reads == short_read && count > 1) {
            tell('s');
            count = 1;
        }
    }
    return real_read(file, bytes, count);
}

ssize_t write(int file, const void *bytes, size_t count)
{
    if (file == 1 || file == 2) {
        writes++;
        if (writes == fail_write) {
            tell('w');
            errno = EIO;
            return -1;
        }
        if (writes == short_write && count > 1) {
            tell('s');
            count = 1;
        }
    }
    return real_write(file, bytes, count);
}

ssize_t __write(int file, const void *bytes, size_t count)
{
    return write(file, bytes, count);
}
