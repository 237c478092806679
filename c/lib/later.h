/* later.h: collectives that don't wait, and persistent ones (MPI 4.1, 6.12, 6.13). At the call, or at its start, a rank sends
   all that others want of it, straight to each of them, for no send waits. What it wants itself it receives when the request
   is completed or tested, from one rank after the other. So nobody needs another one's progress. Each collective has a number
   in its tag, counted for each communicator, so that several may be on their way. */
#ifndef RVMC_LATER_H
#define RVMC_LATER_H

#include "topologies.h"

/* A buffer: a part for each rank, or the same for all. */
struct side {
    const char *buffer;
    int same, count;
    MPI_Datatype type;
    const int *counts, *places;                   /* without places the parts stand one behind the other */
    const MPI_Aint *bytes;
    const MPI_Datatype *types;                    /* then places are in bytes */
    const char *names[4];                         /* the buffer's, the count's, the datatype's and that of several counts */
};

struct later {
    struct group g;
    int number;
    struct side out, in;
    unsigned to, from;                            /* bit r: this rank sends to the one at place r, or receives from it */
    int own;                                      /* what this rank has for itself is copied at the start */
    int heard;                                    /* with --synchronizing: the place up to which others are known to have begun */
    int next;                                     /* the place from which it receives next, or which of its neighbors */
    struct rvmc_neighbors neighbors;              /* of neighborhood collectives, which have no bits above */
    /* of reductions: which ranks' data are folded, and by what */
    unsigned folded;
    MPI_User_function *function;
    rvmc_fold *fold;
    long count;
    char *all, *last, *memory[2];
};

/* Begins a collective, whose arguments are there and checked; or makes a persistent one. */
int rvmc_later_begin(struct later *l, MPI_Request *request);
int rvmc_later_init(struct later *l, MPI_Request *request);

RVMC_INLINE unsigned bit(int place)
{
    return 1u << place;
}

/* The other ranks of the communicator, and all. */
RVMC_INLINE unsigned everybody(const struct group *g)
{
    return bit(g->size) - 1;
}

RVMC_INLINE unsigned others(const struct group *g)
{
    return everybody(g) & ~bit(g->me);
}

RVMC_INLINE MPI_Datatype side_type(const struct side *s, int i)
{
    return s->types ? s->types[i] : s->type;
}

RVMC_INLINE long side_count(const struct side *s, int i)
{
    return s->counts ? s->counts[i] : s->count;
}

char *rvmc_side_place(const struct side *s, int i);

#endif
