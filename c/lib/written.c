/* written.c: puts out the files that a rank wrote, when it ends. rvmc-cc links this in the place of _exit where a program
   opens files. docs/C.md has the lines; rvmc-mpi takes them out of what the rank printed. */
#include <string.h>
#include "call.h"
#include "files.h"
#include "system.h"

/* The bytes of a file that a line has: whole threes, which are whole fours of digits. */
enum { BYTES_OF_LINE = 3000 };

/* "rvmc-file-" and a hash of the sources, so that no program prints it without meaning to. */
extern const char rvmc_marker[];

/* rvmc-cc says what follows: the end, or what a program that has collectives does before. */
void rvmc_behind_files(int code) __attribute__((noreturn));
void rvmc_end_with_files(int code) __attribute__((noreturn));

/* Begins a line of a file in the hart's own line, which is empty: the mark, and what it is. */
static char *begin_line(const char *what)
{
    char *at = rvmc_pages[rvmc_hart].line;

    *at++ = 1;
    strcpy(at, rvmc_marker);
    at += strlen(at);
    strcpy(at, what);
    return at + strlen(at);
}

/* Puts it out, if there is room in the rank's output. By this name `rvmc-mpi list` leaves such calls out. */
static __attribute__((noinline)) int rvmc_put_written(char *end)
{
    char *line = rvmc_pages[rvmc_hart].line;

    *end++ = '\n';
    return rvmc_call(RVMC_PUT, (long)line, end - line, 0, 0, 0, 0).code == RVMC_OK;
}

static char *put_number(char *at, size_t number)
{
    char digits[20];
    int n = 0;

    do
        digits[n++] = (char)('0' + number % 10);
    while (number /= 10);
    while (n)
        *at++ = digits[--n];
    return at;
}

/* A control character of a name would break the line. */
static char *put_name(char *at, const char *name)
{
    for (; *name; name++)
        *at++ = (unsigned char)*name < ' ' || *name == 127 ? '?' : *name;
    return at;
}

/* The digits of base64 for some bytes. */
static char *put_bytes(char *at, const unsigned char *from, size_t count)
{
    static const char digits[] = "ABCDEFGHIJKLMNOPQRSTUVWXYZabcdefghijklmnopqrstuvwxyz0123456789+/";

    for (; count >= 3; count -= 3, from += 3, at += 4) {
        unsigned three = (unsigned)from[0] << 16 | (unsigned)from[1] << 8 | from[2];

        at[0] = digits[three >> 18];
        at[1] = digits[three >> 12 & 63];
        at[2] = digits[three >> 6 & 63];
        at[3] = digits[three & 63];
    }
    if (count) {
        unsigned three = (unsigned)from[0] << 16 | (count == 2 ? (unsigned)from[1] << 8 : 0);

        *at++ = digits[three >> 18];
        *at++ = digits[three >> 12 & 63];
        *at++ = count == 2 ? digits[three >> 6 & 63] : '=';
        *at++ = '=';
    }
    return at;
}

/* Puts out a file: a line with its size and its name, and lines with its bytes. If these don't all fit, the size tells it; if
   there is no room for the first line, the trap is that of a printed line. */
static void put_file(const struct rvmc_file *file)
{
    char *at = put_number(begin_line(" file "), file->size);
    size_t done, count;
    int fits = 1;

    *at++ = ' ';
    if (!rvmc_put_written(put_name(at, file->name)))
        __asm__ volatile("ebreak");
    for (done = 0; fits && done < file->size; done += count) {
        count = file->size - done < BYTES_OF_LINE ? file->size - done : BYTES_OF_LINE;
        fits = rvmc_put_written(put_bytes(begin_line(" data "), (const unsigned char *)file->bytes + done, count));
    }
}

/* The end of hart 0 is that of the rank. */
void rvmc_end_with_files(int code)
{
    rvmc_put_line();
    for (const struct rvmc_file *file = rvmc_hart == 0 ? rvmc_held : 0; file; file = file->next)
        if (file->changed)
            put_file(file);
    rvmc_behind_files(code);
}
