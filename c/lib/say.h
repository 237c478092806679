/* say.h: a line of the rank, that tells what went wrong: %d is a long, %x an address, %s words. */
#ifndef RVMC_SAY_H
#define RVMC_SAY_H

void rvmc_say(const char *format, ...);

/* Parts of a line, without the rank before them. */
void rvmc_put(const char *format, ...);

#endif
