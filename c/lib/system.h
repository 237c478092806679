/* system.h: what the files of the library share beside the machine's calls. */
#ifndef RVMC_SYSTEM_H
#define RVMC_SYSTEM_H

/* What each hart has to itself outside its stack, made by guest.ld: the line that it prints, and room for the first piece of a
   large message that it sends, or for a collective's message with its head. */
struct rvmc_page {
    char line[4096];
    char first[4096 + 8];
    long filled, count;
};
extern struct rvmc_page rvmc_pages[];

void rvmc_put_line(void);
void rvmc_begin_line(void);
void rvmc_tell(const char *what, const char *more);
void rvmc_work(long hart);
void rvmc_threads_begin(void);
void rvmc_threads_end(void);
void _exit(int code) __attribute__((noreturn));

#endif
