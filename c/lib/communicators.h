/* communicators.h: what a communicator of MPI is here. The machine has eight: 0 is all ranks, 1 its twin, in which the library
   talks, and 2 to 7 are contexts, all ranks too. The messages between two ranks of a communicator go in its context, under
   the ranks of MPI_COMM_WORLD; its collectives go in the twin, by a tag of their own (call.h). So a communicator costs no
   bits of a tag, and a receive of any source and any tag never takes another one's message. */
#ifndef RVMC_COMMUNICATORS_H
#define RVMC_COMMUNICATORS_H

/* An MPI_Comm is a number in rvmc_table. All members have the same one, for it is that of the context: but MPI_COMM_SELF,
   which gets a context when a message is sent in it first. */
#define RVMC_COMMUNICATORS 8
#define RVMC_NOWHERE 15
struct rvmc_topology;
struct rvmc_communicator {
    unsigned ranks;                               /* 4 bits at 4 * p: the rank in MPI_COMM_WORLD at position p */
    unsigned places;                              /* 4 bits at 4 * r: the position of rank r, or RVMC_NOWHERE */
    signed char size;                             /* 0: there is none */
    signed char me;                               /* this rank's position, or -1 */
    signed char context;                          /* the machine's communicator, or -1: none yet */
    unsigned char freed;                          /* by MPI_Comm_free, with requests that are still open */
    unsigned short open;                          /* receives that aren't complete, and inactive ones */
    unsigned short later, lasting;                /* collectives that don't wait, and persistent ones: how many were begun */
    struct rvmc_topology *topology;
};
extern struct rvmc_communicator rvmc_table[RVMC_COMMUNICATORS];

/* By what a reader knows a communicator: behind the call that made it, that call's name, and the text of MPI_Comm_set_name.
   rvmc-mpi reads it in records. */
struct rvmc_maker {
    unsigned place, call;
    const char *name;
};
extern struct rvmc_maker rvmc_makers[RVMC_COMMUNICATORS];

/* What c is: null where it is no communicator, or has been freed, or this rank is no member. */
const struct rvmc_communicator *rvmc_known(MPI_Comm c);
long rvmc_context_of(MPI_Comm c);
long rvmc_there_in(MPI_Comm c, int rank);
void rvmc_here_in(MPI_Comm c, MPI_Status *status);
long rvmc_asked_elsewhere(long number, MPI_Comm c, int *value);

RVMC_INLINE int rvmc_rank_at(const struct rvmc_communicator *of, int place)
{
    return of->ranks >> 4 * place & 15;
}
RVMC_INLINE int rvmc_position(const struct rvmc_communicator *of, int rank)
{
    int place = of->places >> 4 * rank & 15;

    return place == RVMC_NOWHERE ? -1 : place;
}

/* What the machine is given for a communicator and for a rank of it. Where there is none it is given what it refuses. */
RVMC_INLINE long rvmc_context(MPI_Comm c)
{
    return c == MPI_COMM_WORLD ? MPI_COMM_WORLD : rvmc_context_of(c);
}
RVMC_INLINE long rvmc_there(MPI_Comm c, int rank)
{
    return c == MPI_COMM_WORLD ? rank : rvmc_there_in(c, rank);
}
/* Behind a receive or a probe: its source becomes a rank of the communicator. */
RVMC_INLINE void rvmc_here(MPI_Comm c, MPI_Status *status)
{
    if (c != MPI_COMM_WORLD && status)
        rvmc_here_in(c, status);
}

RVMC_INLINE long rvmc_arrived(long code, MPI_Comm c, MPI_Status *status)
{
    if (code == RVMC_OK || code == RVMC_TRUNCATED)
        rvmc_here(c, status);
    return code;
}

/* Receives that are open in a communicator, which keeps its context as long. */
void rvmc_opened(MPI_Comm c);
void rvmc_closed(MPI_Comm c);
void rvmc_completed_elsewhere(MPI_Comm c, int kind, MPI_Status *status);

/* The contexts that this rank has free: bit k is context k. */
extern unsigned char rvmc_contexts;
int rvmc_take_context(int context);
void rvmc_begin_context(void);
void rvmc_end_context(void);
void rvmc_lock(void);
void rvmc_unlock(void);

#endif
