/* heap.h: what is told where the heap has no room. */
#ifndef RVMC_HEAP_H
#define RVMC_HEAP_H

#include <stddef.h>

/* Tells of the first call that finds no room in which line it stands, how much it asks for, and what helps: the call gives
   so many elements of a size, and needs so many bytes of the heap with what is kept beside them. */
void rvmc_tell_no_room(const char *call, size_t count, size_t size, size_t beside, const void *behind);

#endif
