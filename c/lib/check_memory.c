/* check_memory.c: the functions of the C library that read and write memory for the program, under --check. rvmc-cc lets the
   program's calls of them come here. */
#include <stdarg.h>
#include <stdio.h>
#include <stdlib.h>
#include <string.h>
#include "checked.h"

#define READS(call, at, size) rvmc_check_range(call, RVMC_BEHIND, at, (long)(size), RVMC_IS_READ)
#define WRITES(call, at, size) rvmc_check_range(call, RVMC_BEHIND, at, (long)(size), RVMC_IS_WRITTEN)

/* A text that doesn't end in its block is read on behind it, so its length is looked for here. */
static size_t length_within(const char *text, size_t most)
{
    size_t n = 0;

    while (n < most && text[n])
        n++;
    return n;
}

static size_t length_of(const char *text)
{
    return length_within(text, (size_t)(RVMC_NUMBER(rvmc_memory) - (long)text));
}

static void tell_null(const char *call, unsigned behind)
{
    RVMC_TELL(behind, 0, "a null pointer is given to %s", rvmc_check_call(call, behind));
}

#define READS_TEXT(call, text) ((text) ? READS(call, text, length_of(text) + 1) : tell_null(call, RVMC_BEHIND))

void *rvmc_checked_memcpy(void *to, const void *from, size_t size)
{
    READS("memcpy", from, size);
    WRITES("memcpy", to, size);
    return rvmc_told ? to : memmove(to, from, size);
}

void *rvmc_checked_memmove(void *to, const void *from, size_t size)
{
    READS("memmove", from, size);
    WRITES("memmove", to, size);
    return rvmc_told ? to : memmove(to, from, size);
}

void *rvmc_checked_memset(void *to, int byte, size_t size)
{
    WRITES("memset", to, size);
    return rvmc_told ? to : memset(to, byte, size);
}

int rvmc_checked_memcmp(const void *a, const void *b, size_t size)
{
    READS("memcmp", a, size);
    READS("memcmp", b, size);
    return rvmc_told ? 0 : memcmp(a, b, size);
}

void *rvmc_checked_memchr(const void *at, int byte, size_t size)
{
    void *found = memchr(at, byte, size);

    READS("memchr", at, found ? (size_t)((char *)found - (const char *)at) + 1 : size);
    return found;
}

size_t rvmc_checked_strlen(const char *text)
{
    READS_TEXT("strlen", text);
    return rvmc_told ? 0 : length_of(text);
}

char *rvmc_checked_strcpy(char *to, const char *from)
{
    READS_TEXT("strcpy", from);
    WRITES("strcpy", to, length_of(from) + 1);
    return rvmc_told ? to : strcpy(to, from);
}

char *rvmc_checked_strncpy(char *to, const char *from, size_t size)
{
    size_t length = length_within(from, size);

    READS("strncpy", from, length < size ? length + 1 : size);
    WRITES("strncpy", to, size);
    return rvmc_told ? to : strncpy(to, from, size);
}

char *rvmc_checked_strcat(char *to, const char *from)
{
    READS_TEXT("strcat", to);
    READS_TEXT("strcat", from);
    WRITES("strcat", to + length_of(to), length_of(from) + 1);
    return rvmc_told ? to : strcat(to, from);
}

char *rvmc_checked_strncat(char *to, const char *from, size_t size)
{
    size_t length = length_within(from, size);

    READS_TEXT("strncat", to);
    READS("strncat", from, length < size ? length + 1 : size);
    WRITES("strncat", to + length_of(to), length + 1);
    return rvmc_told ? to : strncat(to, from, size);
}

int rvmc_checked_strcmp(const char *a, const char *b)
{
    READS_TEXT("strcmp", a);
    READS_TEXT("strcmp", b);
    return rvmc_told ? 0 : strcmp(a, b);
}

char *rvmc_checked_strchr(const char *text, int byte)
{
    READS_TEXT("strchr", text);
    return rvmc_told ? 0 : strchr(text, byte);
}

char *rvmc_checked_strrchr(const char *text, int byte)
{
    READS_TEXT("strrchr", text);
    return rvmc_told ? 0 : strrchr(text, byte);
}

char *rvmc_checked_strstr(const char *text, const char *part)
{
    READS_TEXT("strstr", text);
    READS_TEXT("strstr", part);
    return rvmc_told ? 0 : strstr(text, part);
}

char *rvmc_checked_strdup(const char *text)
{
    READS_TEXT("strdup", text);
    return rvmc_told ? 0 : rvmc_heap_copy(text, length_of(text), 0, RVMC_BEHIND);
}

char *rvmc_checked_strndup(const char *text, size_t most)
{
    size_t length = length_within(text, most);

    READS("strndup", text, length < most ? length + 1 : most);
    return rvmc_told ? 0 : rvmc_heap_copy(text, length, 1, RVMC_BEHIND);
}

char *rvmc_checked_fgets(char *to, int size, FILE *file)
{
    WRITES("fgets", to, size);
    return rvmc_told ? 0 : fgets(to, size, file);
}

size_t rvmc_checked_fread(void *to, size_t size, size_t count, FILE *file)
{
    WRITES("fread", to, size * count);
    return rvmc_told ? 0 : fread(to, size, count, file);
}

size_t rvmc_checked_fwrite(const void *from, size_t size, size_t count, FILE *file)
{
    READS("fwrite", from, size * count);
    return rvmc_told ? 0 : fwrite(from, size, count, file);
}

int rvmc_checked_fputs(const char *text, FILE *file)
{
    READS_TEXT("fputs", text);
    return rvmc_told ? 0 : fputs(text, file);
}

int rvmc_checked_puts(const char *text)
{
    READS_TEXT("puts", text);
    return rvmc_told ? 0 : puts(text);
}

/* How long the text is, is found out before it is written. */
int rvmc_checked_sprintf(char *to, const char *format, ...)
{
    va_list values;
    int length;

    va_start(values, format);
    length = vsnprintf(0, 0, format, values);
    va_end(values);
    WRITES("sprintf", to, length + 1);
    va_start(values, format);
    if (!rvmc_told)
        vsprintf(to, format, values);
    va_end(values);
    return length;
}

int rvmc_checked_snprintf(char *to, size_t room, const char *format, ...)
{
    va_list values;
    int length;

    va_start(values, format);
    length = vsnprintf(0, 0, format, values);
    va_end(values);
    WRITES("snprintf", to, (size_t)length < room ? (size_t)length + 1 : room);
    va_start(values, format);
    if (!rvmc_told)
        vsnprintf(to, room, format, values);
    va_end(values);
    return length;
}
