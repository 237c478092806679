/* contexts.h: what the files share that make communicators. A group is a number: 3 bits for the rank at each position, how
   many they are from bit 24 on, and bit 28. So groups take no memory, and two that are identical are equal. */
#ifndef RVMC_CONTEXTS_H
#define RVMC_CONTEXTS_H

RVMC_INLINE int rvmc_group_size(MPI_Group group)
{
    return group >> 24 & 15;
}
RVMC_INLINE int rvmc_member_at(MPI_Group group, int place)
{
    return group >> 3 * place & 7;
}
/* With one rank more at the end. */
RVMC_INLINE MPI_Group rvmc_group_and(MPI_Group group, int rank)
{
    return (group | rank << 3 * rvmc_group_size(group)) + (1 << 24);
}
/* The position of a rank of MPI_COMM_WORLD, or -1. */
RVMC_INLINE int rvmc_group_place(MPI_Group group, int rank)
{
    for (int place = 0; place < rvmc_group_size(group); place++)
        if (rvmc_member_at(group, place) == rank)
            return place;
    return -1;
}
MPI_Group rvmc_group_of(const struct rvmc_communicator *of);
int rvmc_group_like(MPI_Group group, MPI_Group other);
int rvmc_wrong_group(const char *call, MPI_Group group);

struct group;
/* The contexts that this rank can offer for a new communicator. */
int rvmc_free_contexts(void);

/* Makes a communicator of the places of g that have the same color, in the order of their keys. Returns the call's error. */
int rvmc_split(struct group *g, int color, int key, MPI_Comm *made);

/* Makes a communicator of all ranks of g, with the first of the contexts that all have free, where ranks have one hart. */
int rvmc_make_copy(struct group *g, int free, MPI_Comm *made);

/* What else a communicator has, where a program has linked it: each does what is to be done when one is made of another one,
   or freed. */
extern struct rvmc_hooks {
    int (*copied_attributes)(MPI_Comm from, MPI_Comm to);
    int (*freed_attributes)(MPI_Comm c);
    void (*freed_name)(MPI_Comm c);
    const char *(*name)(MPI_Comm c);
    void (*freed_info)(MPI_Comm c);
    void (*used_handler)(MPI_Errhandler handler, int change);
    int (*copied_topology)(MPI_Comm from, MPI_Comm to);
    void (*freed_topology)(MPI_Comm c);
    int (*reserved)(MPI_Comm except);             /* the contexts that open copies may get, but for those of one communicator */
    void (*settled)(void);                        /* waits for them */
} rvmc_hooks;

#endif
