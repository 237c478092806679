/* streams.c: streams of the rank's files, without a buffer: the file is in memory already, and nothing is lost where a
   program ends without fclose. Also what the C library has wrong of other streams. */
#include <errno.h>
#include <fcntl.h>
#include <stdio.h>
#include <stdlib.h>
#include <string.h>
#include <unistd.h>
#include "files.h"
#include "say.h"

struct stream {
    struct __file_ext ext;
    int number;
};

#define OPENED(stream) (&rvmc_descriptors[((struct stream *)(stream))->number])

/* The file that freopen has put in the place of standard input. */
static int input_number;

static int put_character(char c, FILE *stream)
{
    struct rvmc_descriptor *open = OPENED(stream);
    struct rvmc_file *file = open->file;
    size_t at = open->flags & O_APPEND ? file->size : open->at;

    if (at > file->size || at >= file->room) {
        if (rvmc_write(((struct stream *)stream)->number, &c, 1) == 1)
            return (unsigned char)c;
        stream->flags |= __SERR;
        return EOF;
    }
    file->bytes[at++] = c;
    open->at = at;
    if (at > file->size)
        file->size = at;
    file->changed = file->name != 0;
    return (unsigned char)c;
}

static int next_of(struct rvmc_descriptor *open)
{
    return open->at < open->file->size ? (unsigned char)open->file->bytes[open->at++] : _FDEV_EOF;
}

static int get_character(FILE *stream)
{
    return next_of(OPENED(stream));
}

static int get_of_input(FILE *stream)
{
    (void)stream;
    return next_of(&rvmc_descriptors[input_number]);
}

static off_t seek(FILE *stream, off_t offset, int from)
{
    return rvmc_seek(((struct stream *)stream)->number, offset, from);
}

static int set_buffer(FILE *stream, char *buffer, int mode, size_t size)
{
    (void)stream, (void)buffer, (void)mode, (void)size;
    return 0;
}

static int close_stream(FILE *stream)
{
    int result = rvmc_close(((struct stream *)stream)->number);

    free(stream);
    return result;
}

/* The C library's fread and fwrite go from byte to byte, which takes thirty times as many turns. rvmc-cc links these in their
   place where a program opens files. */
size_t __real_fread(void *to, size_t size, size_t count, FILE *stream);
size_t __real_fwrite(const void *from, size_t size, size_t count, FILE *stream);

static int may(FILE *stream, int flag)
{
    return stream->put == put_character && (stream->flags & flag) && !stream->unget;
}

size_t rvmc_fread(void *to, size_t size, size_t count, FILE *stream)
{
    long got;

    if (!size || !may(stream, __SRD))
        return __real_fread(to, size, count, stream);
    got = rvmc_read(((struct stream *)stream)->number, to, size * count);
    if (got < (long)(size * count))
        stream->flags |= __SEOF;
    return got < 0 ? 0 : (size_t)got / size;
}

size_t rvmc_fwrite(const void *from, size_t size, size_t count, FILE *stream)
{
    if (!size || !may(stream, __SWR))
        return __real_fwrite(from, size, count, stream);
    if (rvmc_write(((struct stream *)stream)->number, from, size * count) >= 0)
        return count;
    stream->flags |= __SERR;
    return 0;
}

/* What open is asked for by fopen's mode, or -1. */
static int flags_of(const char *mode)
{
    int flags = *mode == 'r' ? O_RDONLY : *mode == 'w' ? O_WRONLY | O_CREAT | O_TRUNC : O_WRONLY | O_CREAT | O_APPEND;

    if (!*mode || !strchr("rwa", *mode)) {
        errno = EINVAL;
        return -1;
    }
    while (*++mode)
        if (*mode == '+')
            flags = (flags & ~O_ACCMODE) | O_RDWR;
        else if (*mode == 'x')
            flags |= O_EXCL;
    return flags;
}

/* Makes a stream one of an open file; -1 is one that couldn't be opened. */
static FILE *begin(struct stream *stream, int number, int flags)
{
    static const struct __file_ext all = FDEV_SETUP_EXT(put_character, get_character, NULL, close_stream, seek, set_buffer, 0);
    int way = flags & O_ACCMODE;

    stream->ext = all;
    stream->ext.cfile.file.flags |= way == O_RDONLY ? _FDEV_SETUP_READ : way == O_WRONLY ? _FDEV_SETUP_WRITE : _FDEV_SETUP_RW;
    stream->number = number;
    if (flags & O_APPEND)
        rvmc_seek(number, 0, SEEK_END);
    return &stream->ext.cfile.file;
}

static FILE *stream_of(int number, int flags)
{
    struct stream *stream = number < 0 ? 0 : malloc(sizeof *stream);

    if (stream)
        return begin(stream, number, flags);
    if (number >= 0)
        rvmc_close(number);
    return 0;
}

FILE *fopen(const char *name, const char *mode)
{
    int flags = flags_of(mode);

    return flags < 0 ? 0 : stream_of(rvmc_open(name, flags, __builtin_return_address(0)), flags);
}

/* A program may have a function of its own under these two names. */
__attribute__((weak)) FILE *fdopen(int number, const char *mode)
{
    int flags = flags_of(mode);

    if (flags < 0)
        return 0;
    if (number == 1 || number == 2)
        return stdout;
    if (number < RVMC_FIRST_FILE || number >= RVMC_MOST_FILES || !rvmc_descriptors[number].file) {
        errno = number == 0 ? EINVAL : EBADF;
        return 0;
    }
    return stream_of(number, flags);
}

FILE *tmpfile(void)
{
    return stream_of(rvmc_open_unnamed(), O_RDWR);
}

/* Lets standard input read from a file. What is printed stays the rank's output. */
static FILE *replace_standard(FILE *stream, int number)
{
    if (number < 0)
        return 0;
    if (stream == stdin) {
        input_number = number;
        stream->get = get_of_input;
        stream->flags = _FDEV_SETUP_READ;
        return stream;
    }
    rvmc_close(number);
    errno = EINVAL;
    return 0;
}

FILE *freopen(const char *name, const char *mode, FILE *stream)
{
    struct stream *own = (struct stream *)stream;
    int flags = flags_of(mode), number;

    if (flags < 0)
        return 0;
    if (stream == stdout) {
        rvmc_say("freopen of stdout isn't served: what is printed stays the rank's output. fopen gives a file to write");
        errno = EINVAL;
        return 0;
    }
    number = name ? rvmc_open(name, flags, __builtin_return_address(0)) : -1;
    if (!(stream->flags & __SEXT))
        return replace_standard(stream, number);
    if (!name) {
        rvmc_descriptors[own->number].flags = flags;
        return begin(own, own->number, flags);
    }
    rvmc_close(own->number);
    if (number >= 0)
        return begin(own, number, flags);
    free(own);
    return 0;
}

/* The C library's forgets a last line that has no newline. */
char *fgets(char *to, int size, FILE *stream)
{
    int n = 0, next = 0;

    while (n < size - 1 && next != '\n' && (next = getc(stream)) != EOF)
        to[n++] = (char)next;
    if (size < 1 || (!n && next == EOF))
        return 0;
    to[n] = 0;
    return to;
}

/* With no stream it is about all of them, and of these only what is printed waits for anything. */
int fflush(FILE *stream)
{
    if (!stream)
        stream = stdout;
    return stream->flush ? stream->flush(stream) : 0;
}

__attribute__((weak)) int fileno(FILE *stream)
{
    return stream->flags & __SEXT ? ((struct stream *)stream)->number : stream == stdout;
}
