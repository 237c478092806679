/* system.c: what the C library wants from below. Printed lines go out by PUT, one at a time, from a buffer of each hart's
   own; exit ends the harts that have no work and then hart 0. */
#include <stdio.h>
#include <stdlib.h>
#include "call.h"
#include "system.h"

int rvmc_rank;
unsigned long rvmc_looks;
_Thread_local int rvmc_hart;

/* Puts out what the hart has printed. An output that is full can take no message either, so the trap is all there is. */
void rvmc_put_line(void)
{
    struct rvmc_page *page = &rvmc_pages[rvmc_hart];

    if (page->filled && rvmc_call(RVMC_PUT, (long)page->line, page->filled, 0, 0, 0, 0).code)
        __asm__ volatile("ebreak");
    page->filled = 0;
}

static int put_character(char c, FILE *stream)
{
    struct rvmc_page *page = &rvmc_pages[rvmc_hart];

    (void)stream;
    page->line[page->filled++] = c;
    if (c == '\n' || page->filled == sizeof page->line)
        rvmc_put_line();
    return (unsigned char)c;
}

static int flush(FILE *stream)
{
    (void)stream;
    rvmc_put_line();
    return 0;
}

static FILE out = FDEV_SETUP_STREAM(put_character, NULL, flush, _FDEV_SETUP_WRITE);
FILE *const stdout = &out;
FILE *const stderr = &out;

/* Begins a line that names the rank: what went wrong, before a trap. */
void rvmc_begin_line(void)
{
    if (rvmc_pages[rvmc_hart].filled)
        putchar('\n');
    fputs("rank ", stdout);
    putchar('0' + rvmc_rank);
    fputs(": ", stdout);
}

void rvmc_tell(const char *what, const char *more)
{
    rvmc_begin_line();
    fputs(what, stdout);
    fputs(more, stdout);
    putchar('\n');
}

/* The end of hart 0 is the end of those that wait for work; one that works ends when it comes to ask for more. The machine
   has no call that ends another hart. */
void _exit(int code)
{
    rvmc_put_line();
    if (rvmc_hart == 0) {
        if (RVMC_NUMBER(rvmc_harts) > 1)
            rvmc_threads_end();
        for (long hart = 1; hart < RVMC_NUMBER(rvmc_harts); hart++)
            rvmc_call(RVMC_SEND, 0, 0, rvmc_rank, RVMC_TAG_WORK + hart, RVMC_TWIN, RVMC_IS_BUFFERED);
    }
    for (;;)
        rvmc_call(RVMC_EXIT, code, 0, 0, 0, 0, 0);
}

void abort(void)
{
    rvmc_tell("abort", "");
    for (;;)
        __asm__ volatile("ebreak");
}

int main(int argc, char **argv);
void __libc_init_array(void);
void rvmc_begin(long rank) __attribute__((noreturn));

void rvmc_begin(long rank)
{
    static char name[] = "guest";
    static char *words[] = {name, NULL};

    rvmc_rank = (int)rank;
    rvmc_threads_begin();
    __libc_init_array();
    exit(main(1, words));
}
