/* ends.c: what MPI_Finalize does first in a program that has collectives. rvmc-cc links it with such a program alone. */
#include "../mpi.h"
#include "orders.h"

/* By this name the place of a rank that waits here is told. It has to be on the stack, so nothing is its last call. */
static void finalize(void) __asm__("MPI_Finalize");
static void finalize(void)
{
    if (rvmc_end_of_attributes)
        rvmc_end_of_attributes();
    rvmc_end_orders();
    __asm__ volatile("");
}

void (*rvmc_at_the_end)(void) = finalize;
