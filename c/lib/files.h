/* files.h: the files of a rank. files.c keeps them and serves descriptors, streams.c streams, and written.c puts out at the
   rank's end those that it wrote. */
#ifndef RVMC_FILES_H
#define RVMC_FILES_H

#include <stddef.h>

/* A file. rvmc-cc writes such entries for --file, with the bytes in the image's constants. */
struct rvmc_file {
    struct rvmc_file *next;
    char *name;                               /* 0 once it is removed, or of tmpfile */
    char *bytes;                              /* in the heap if there is room, otherwise the image's */
    size_t size, room;
    int opened;                               /* how many descriptors it has */
    int changed;                              /* whether the rank made it or wrote it */
};
extern struct rvmc_file *rvmc_held;

/* What a descriptor has: 0 to 2 are standard input and what is printed. */
enum { RVMC_FIRST_FILE = 3, RVMC_MOST_FILES = 20 };
struct rvmc_descriptor {
    struct rvmc_file *file;                   /* 0 if it isn't open */
    size_t at;
    int flags;                                /* open's */
};
extern struct rvmc_descriptor rvmc_descriptors[];

int rvmc_open(const char *name, int flags, const void *behind);
int rvmc_open_unnamed(void);
int rvmc_close(int number);
long rvmc_read(int number, void *buffer, size_t size);
long rvmc_write(int number, const void *buffer, size_t size);
long rvmc_seek(int number, long offset, int from);

#endif
