/* files.c: the files of a rank, by their descriptors, and standard input, which rank 0 has. A rank begins with the files that
   rvmc-cc has put into the image. What it writes is kept in its own heap, where no other rank sees it. */
#include <errno.h>
#include <fcntl.h>
#include <stdio.h>
#include <stdlib.h>
#include <string.h>
#include <sys/stat.h>
#include <unistd.h>
#include "call.h"
#include "files.h"
#include "places.h"
#include "say.h"
#include "system.h"

/* A program may have a function of its own under a name that is POSIX's. The library calls those that begin with rvmc_. */
#define POSIX __attribute__((weak))

/* the bytes of a name, with its end */
enum { LONGEST = 256 };

extern struct rvmc_file rvmc_files[];
extern const char rvmc_stdin[], rvmc_stdin_end[];
extern char __heap_start[];

struct rvmc_file *rvmc_held = rvmc_files;
struct rvmc_descriptor rvmc_descriptors[RVMC_MOST_FILES];
static const char *input, *input_end;
static int told_missing;

/* Other ranks find the end at once. By this name rvmc-mpi knows that a program may read standard input. */
__attribute__((noinline)) void rvmc_standard_input(void)
{
    input = rvmc_stdin;
    input_end = rvmc_rank == 0 ? rvmc_stdin_end : rvmc_stdin;
}

static int get_character(FILE *stream)
{
    (void)stream;
    if (!input_end)
        rvmc_standard_input();
    return input < input_end ? (unsigned char)*input++ : _FDEV_EOF;
}

static FILE in = FDEV_SETUP_STREAM(NULL, get_character, NULL, _FDEV_SETUP_READ);
FILE *const stdin = &in;

static int failed(int error)
{
    errno = error;
    return -1;
}

static int is_open(int number)
{
    return number >= RVMC_FIRST_FILE && number < RVMC_MOST_FILES && rvmc_descriptors[number].file;
}

/* The name that a file has in the table, seen from the folder / in which each rank is: without . and .. and empty parts. */
static int plain_name(char *to, const char *name)
{
    size_t n = 0, length = 0;

    if (!*name)
        return failed(ENOENT);
    for (; *name; name += length + (name[length] == '/')) {
        length = strcspn(name, "/");
        if (length == 2 && !memcmp(name, "..", 2)) {
            while (n > 0 && to[--n] != '/')
                ;
        } else if (length && !(length == 1 && *name == '.')) {
            if (n + length + 2 > LONGEST)
                return failed(ENAMETOOLONG);
            if (n)
                to[n++] = '/';
            memcpy(to + n, name, length);
            n += length;
        }
    }
    to[n] = 0;
    return n && name[-1] != '/' ? 0 : failed(EISDIR);
}

static struct rvmc_file *found(const char *plain)
{
    struct rvmc_file *file = rvmc_held;

    while (file && !(file->name && !strcmp(file->name, plain)))
        file = file->next;
    return file;
}

/* The file of a name, or 0 and errno. */
static struct rvmc_file *named(const char *name)
{
    char plain[LONGEST];
    struct rvmc_file *file;

    if (plain_name(plain, name))
        return 0;
    if (!(file = found(plain)))
        errno = ENOENT;
    return file;
}

/* What rvmc-cc has written isn't the heap's. */
static void release(void *place)
{
    if ((char *)place >= __heap_start)
        free(place);
}

/* A new file at the end of the list: they are put out in the order in which they were made. */
static struct rvmc_file *made(const char *plain)
{
    struct rvmc_file *file = calloc(1, sizeof *file), **end = &rvmc_held;

    if (file && plain && !(file->name = strdup(plain))) {
        free(file);
        file = 0;
    }
    if (!file) {
        errno = ENOSPC;
        return 0;
    }
    file->changed = plain != 0;
    while (*end)
        end = &(*end)->next;
    return *end = file;
}

/* Forgets a file that was removed, once nobody has it open. */
static void forget(struct rvmc_file *file)
{
    struct rvmc_file **at = &rvmc_held;

    if (file->name || file->opened)
        return;
    while (*at != file)
        at = &(*at)->next;
    *at = file->next;
    release(file->bytes);
    release(file);
}

/* Gives a file room for so many bytes, and for more if there is some. A program that doesn't look would lose them without a
   word. */
static int make_room(struct rvmc_file *file, size_t size, size_t more)
{
    static int told;
    size_t room = size + more;
    char *bytes;

    if (size <= file->room)
        return 0;
    if (!(bytes = malloc(room)) && !(bytes = malloc(room = size))) {
        if (!told)
            rvmc_say("the heap has no room for %d bytes of the file %s: rvmc-cc --memory gives more, up to 1048576", (long)size,
                     file->name ? file->name : "of tmpfile");
        told = 1;
        return failed(ENOSPC);
    }
    memcpy(bytes, file->bytes, file->size);
    release(file->bytes);
    file->bytes = bytes;
    file->room = room;
    return 0;
}

/* Makes a file as long as this, by zeros. */
static int set_size(struct rvmc_file *file, size_t size)
{
    if (size > file->size) {
        if (make_room(file, size, 0))
            return -1;
        memset(file->bytes + file->size, 0, size - file->size);
    }
    file->size = size;
    file->changed = file->name != 0;
    return 0;
}

static int free_number(void)
{
    int number = RVMC_FIRST_FILE;

    while (number < RVMC_MOST_FILES && rvmc_descriptors[number].file)
        number++;
    return number < RVMC_MOST_FILES ? number : failed(EMFILE);
}

static int opened_as(int number, struct rvmc_file *file, int flags)
{
    rvmc_descriptors[number] = (struct rvmc_descriptor){file, 0, flags};
    file->opened++;
    if ((flags & O_TRUNC) && (flags & O_ACCMODE) != O_RDONLY)
        set_size(file, 0);
    return number;
}

/* A file that isn't there: most often the program was to read it, and nobody has given it. A rank that removes files by
   itself knows what isn't there. */
static int missing(const char *name, const void *behind)
{
    const struct rvmc_place *place = rvmc_place_of(behind);
    int told = told_missing;

    told_missing = 1;
    if (!told && place)
        rvmc_say("%s:%d: there is no file %s: rvmc-cc --file %s puts it into the image", rvmc_file_of(place),
                 (long)place->line, name, name);
    else if (!told)
        rvmc_say("there is no file %s: rvmc-cc --file %s puts it into the image", name, name);
    return failed(ENOENT);
}

int rvmc_open(const char *name, int flags, const void *behind)
{
    char plain[LONGEST];
    struct rvmc_file *file;
    int number;

    if (plain_name(plain, name))
        return -1;
    file = found(plain);
    if (file && (flags & O_CREAT) && (flags & O_EXCL))
        return failed(EEXIST);
    if (!file && !(flags & O_CREAT))
        return missing(name, behind);
    if ((number = free_number()) < 0 || !(file || (file = made(plain))))
        return -1;
    return opened_as(number, file, flags);
}

int rvmc_open_unnamed(void)
{
    int number = free_number();
    struct rvmc_file *file = number < 0 ? 0 : made(0);

    return file ? opened_as(number, file, O_RDWR) : -1;
}

POSIX int open(const char *name, int flags, ...)
{
    return rvmc_open(name, flags, __builtin_return_address(0));
}

POSIX int creat(const char *name, mode_t mode)
{
    (void)mode;
    return rvmc_open(name, O_WRONLY | O_CREAT | O_TRUNC, __builtin_return_address(0));
}

int rvmc_close(int number)
{
    struct rvmc_file *file;

    if (!is_open(number))
        return number >= 0 && number < RVMC_FIRST_FILE ? 0 : failed(EBADF);
    file = rvmc_descriptors[number].file;
    rvmc_descriptors[number].file = 0;
    file->opened--;
    forget(file);
    return 0;
}

POSIX int close(int number)
{
    return rvmc_close(number);
}

static ssize_t read_input(void *buffer, size_t size)
{
    size_t left;

    if (!input_end)
        rvmc_standard_input();
    left = (size_t)(input_end - input);
    size = size < left ? size : left;
    memcpy(buffer, input, size);
    input += size;
    return (ssize_t)size;
}

long rvmc_read(int number, void *buffer, size_t size)
{
    struct rvmc_descriptor *open = &rvmc_descriptors[number];
    size_t left;

    if (!is_open(number) || (open->flags & O_ACCMODE) == O_WRONLY)
        return failed(EBADF);
    left = open->at < open->file->size ? open->file->size - open->at : 0;
    size = size < left ? size : left;
    memcpy(buffer, open->file->bytes + open->at, size);
    open->at += size;
    return (long)size;
}

POSIX ssize_t read(int number, void *buffer, size_t size)
{
    return number == 0 ? read_input(buffer, size) : rvmc_read(number, buffer, size);
}

/* What is written to 1 and 2 is printed. */
long rvmc_write(int number, const void *buffer, size_t size)
{
    struct rvmc_descriptor *open = &rvmc_descriptors[number];

    if (number == 1 || number == 2) {
        for (size_t i = 0; i < size; i++)
            putchar(((const char *)buffer)[i]);
        return (ssize_t)size;
    }
    if (!is_open(number) || (open->flags & O_ACCMODE) == O_RDONLY)
        return failed(EBADF);
    if (open->flags & O_APPEND)
        open->at = open->file->size;
    if (!size)
        return 0;
    if (make_room(open->file, open->at + size, (open->at + size) / 2 + 64))
        return -1;
    if (open->at > open->file->size)
        set_size(open->file, open->at);
    memcpy(open->file->bytes + open->at, buffer, size);
    open->at += size;
    if (open->at > open->file->size)
        open->file->size = open->at;
    open->file->changed = open->file->name != 0;
    return (long)size;
}

POSIX ssize_t write(int number, const void *buffer, size_t size)
{
    return rvmc_write(number, buffer, size);
}

long rvmc_seek(int number, long offset, int from)
{
    struct rvmc_descriptor *open = &rvmc_descriptors[number];

    if (!is_open(number))
        return failed(number >= 0 && number < RVMC_FIRST_FILE ? ESPIPE : EBADF);
    offset += from == SEEK_SET ? 0 : from == SEEK_CUR ? (off_t)open->at : (off_t)open->file->size;
    if (offset < 0)
        return failed(EINVAL);
    open->at = (size_t)offset;
    return offset;
}

POSIX off_t lseek(int number, off_t offset, int from)
{
    return rvmc_seek(number, offset, from);
}

POSIX int ftruncate(int number, off_t length)
{
    if (!is_open(number) || (rvmc_descriptors[number].flags & O_ACCMODE) == O_RDONLY)
        return failed(is_open(number) ? EINVAL : EBADF);
    return length < 0 ? failed(EINVAL) : set_size(rvmc_descriptors[number].file, (size_t)length);
}

POSIX int truncate(const char *name, off_t length)
{
    struct rvmc_file *file = named(name);

    if (!file)
        return -1;
    return length < 0 ? failed(EINVAL) : set_size(file, (size_t)length);
}

POSIX int fsync(int number)
{
    return is_open(number) ? 0 : failed(number >= 0 && number < RVMC_FIRST_FILE ? EINVAL : EBADF);
}

static int described(const struct rvmc_file *file, struct stat *about)
{
    memset(about, 0, sizeof *about);
    about->st_mode = file ? S_IFREG | 0644 : S_IFCHR | 0666;
    about->st_nlink = 1;
    about->st_size = file ? (off_t)file->size : 0;
    return 0;
}

POSIX int fstat(int number, struct stat *about)
{
    if (number >= 0 && number < RVMC_FIRST_FILE)
        return described(0, about);
    return is_open(number) ? described(rvmc_descriptors[number].file, about) : failed(EBADF);
}

POSIX int stat(const char *name, struct stat *about)
{
    const struct rvmc_file *file = named(name);

    return file ? described(file, about) : -1;
}

POSIX int access(const char *name, int mode)
{
    if (!named(name))
        return -1;
    return mode & X_OK ? failed(EACCES) : 0;
}

/* Who has it open may read and write it still. */
static void take_name(struct rvmc_file *file)
{
    told_missing = 1;
    release(file->name);
    file->name = 0;
    file->changed = 0;
    forget(file);
}

POSIX int unlink(const char *name)
{
    struct rvmc_file *file = named(name);

    if (!file)
        return -1;
    take_name(file);
    return 0;
}

int rename(const char *from, const char *to)
{
    char plain[LONGEST], *name;
    struct rvmc_file *file = named(from), *other;

    if (!file || plain_name(plain, to))
        return -1;
    other = found(plain);
    if (other == file)
        return 0;
    if (!(name = strdup(plain)))
        return failed(ENOSPC);
    if (other)
        take_name(other);
    told_missing = 1;
    release(file->name);
    file->name = name;
    file->changed = 1;
    return 0;
}

/* A name may have folders in it, and they need not be made. */
POSIX int mkdir(const char *name, mode_t mode)
{
    (void)mode;
    return *name ? 0 : failed(ENOENT);
}

POSIX int isatty(int number)
{
    (void)number;
    errno = ENOTTY;
    return 0;
}
