/* check.c: how --check tells what it finds: one line with the places of the calls, once for each pair of places. */
#include <string.h>
#include "checked.h"

enum { TOLD = 64, TEXTS = 8, LONGEST_TEXT = 80 };

_Thread_local int rvmc_told;
volatile unsigned rvmc_check_changes;

static struct pair {
    unsigned behind, other;
} told[TOLD];
static int count_told;

int rvmc_check_is_new(unsigned behind, unsigned other)
{
    for (int i = 0; i < count_told; i++)
        if (told[i].behind == behind && told[i].other == other)
            return 0;
    if (count_told < TOLD)
        told[count_told++] = (struct pair){behind, other};
    return 1;
}

void rvmc_check_trap(void)
{
    rvmc_told = RVMC_NUMBER(rvmc_check_traps) > 1;
}

static char *next_text(void)
{
    static char texts[TEXTS][LONGEST_TEXT];
    static int next;

    next = (next + 1) % TEXTS;
    return texts[next];
}

static char *add(char *to, const char *end, const char *text)
{
    while (*text && to < end)
        *to++ = *text++;
    *to = 0;
    return to;
}

static char *add_line(char *to, const char *end, unsigned behind)
{
    const struct rvmc_place *place = rvmc_place_of((const void *)(unsigned long)behind);
    char digits[12], *digit = digits + sizeof digits - 1;

    if (!place)
        return add(to, end, "a place of the library");
    *digit = 0;
    for (unsigned line = place->line; line || !*digit; line /= 10)
        *--digit = (char)('0' + line % 10);
    to = add(to, end, rvmc_file_of(place));
    return add(add(to, end, ":"), end, digit);
}

const char *rvmc_check_line(unsigned behind)
{
    char *text = next_text();

    add_line(text, text + LONGEST_TEXT - 1, behind);
    return text;
}

const char *rvmc_check_call(const char *call, unsigned behind)
{
    char *text = next_text();
    const char *end = text + LONGEST_TEXT - 1;

    add_line(add(add(text, end, call), end, " at "), end, behind);
    return text;
}

/* RISC-V has no trap for it: the quotient is -1. */
void rvmc_check_division(unsigned long behind)
{
    RVMC_TELL((unsigned)behind, 0, "division by zero at %s", rvmc_check_line((unsigned)behind));
}

/* The C library's lock, which malloc takes too (threads.c). */
struct __lock;
extern struct __lock __lock___libc_recursive_mutex;
void __retarget_lock_acquire_recursive(struct __lock *lock);
void __retarget_lock_release_recursive(struct __lock *lock);

void rvmc_check_lock(void)
{
    __retarget_lock_acquire_recursive(&__lock___libc_recursive_mutex);
    rvmc_check_changes++;
}

void rvmc_check_unlock(void)
{
    rvmc_check_changes++;
    __retarget_lock_release_recursive(&__lock___libc_recursive_mutex);
}
