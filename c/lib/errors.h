/* errors.h: what the files of the library share to tell errors. */
#ifndef RVMC_ERRORS_H
#define RVMC_ERRORS_H

#include "say.h"

extern MPI_Errhandler rvmc_handlers[RVMC_COMMUNICATORS];
extern void (*rvmc_own_handler)(MPI_Comm c, MPI_Errhandler handler, int error);

/* What the error handler of a communicator makes of an error: what the call returns, or 0 for what is told and traps. */
int rvmc_handled(MPI_Comm c, int error);

/* An error of a call, by the handler of the communicator: what the call returns, or 0 for a trap. The format is one of
   rvmc_say. */
int rvmc_raise(const char *call, MPI_Comm c, int error, const char *argument, const char *format, ...);

/* What --check gives the machine for a source of -1. */
#define RVMC_NO_SOURCE (-2147483647)

extern int rvmc_later_error;

/* No memory: in the heap, or in a table of so many things. */
int rvmc_full_heap(const char *call);
int rvmc_no_room(const char *call, long most, const char *things);

extern const char rvmc_no_context[];              /* what is told where a seventh communicator is made */

const char *rvmc_type_name(MPI_Datatype type);
const char *rvmc_op_name(MPI_Op op);

#endif
