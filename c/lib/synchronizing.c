/* synchronizing.c: rvmc-cc --synchronizing. MPI lets each collective wait until all members have called it, and a program that
   ends only because one doesn't is wrong (MPI 4.1, 6.14). The library's wait for nothing but what they need. With the option
   the linker has each blocking collective that the program calls begin in a function of this file, where the members wait for
   one another. Those that don't wait do so when their requests are completed (later.c). */
#include "../mpi.h"

/* Each member tells each other one that it has called, and hears it of all. */
RVMC_INLINE void meet(MPI_Comm c)
{
    const struct rvmc_communicator *of = rvmc_idle() ? 0 : rvmc_known(c);

    for (int place = 0; of && place < of->size; place++)
        if (place != of->me)
            rvmc_call(RVMC_SEND, 0, 0, rvmc_rank_at(of, place), RVMC_TAG_MEETING + c, RVMC_TWIN, RVMC_IS_BUFFERED);
    for (int place = 0; of && place < of->size; place++)
        if (place != of->me)
            rvmc_call(RVMC_RECV, 0, 0, rvmc_rank_at(of, place), RVMC_TAG_MEETING + c, RVMC_TWIN, 0);
}

/* What MPI is given are words: eight in registers, a ninth on the stack. One of them is the communicator. The call itself is
   gone on to with all of them as they are, and with the program's return address. */
#define MEETS(name, communicator) \
    int __real_MPI_##name(long w0, long w1, long w2, long w3, long w4, long w5, long w6, long w7); \
    int __wrap_MPI_##name(long w0, long w1, long w2, long w3, long w4, long w5, long w6, long w7); \
    int __wrap_MPI_##name(long w0, long w1, long w2, long w3, long w4, long w5, long w6, long w7) \
    { \
        meet((MPI_Comm)communicator); \
        return __real_MPI_##name(w0, w1, w2, w3, w4, w5, w6, w7); \
    }
#define MEETS_BY_NINTH(name) \
    int __real_MPI_##name(long w0, long w1, long w2, long w3, long w4, long w5, long w6, long w7, long w8); \
    int __wrap_MPI_##name(long w0, long w1, long w2, long w3, long w4, long w5, long w6, long w7, long w8); \
    int __wrap_MPI_##name(long w0, long w1, long w2, long w3, long w4, long w5, long w6, long w7, long w8) \
    { \
        meet((MPI_Comm)w8); \
        return __real_MPI_##name(w0, w1, w2, w3, w4, w5, w6, w7, w8); \
    }

MEETS(Barrier, w0)
MEETS(Bcast, w4)
MEETS(Gather, w7)
MEETS_BY_NINTH(Gatherv)
MEETS(Scatter, w7)
MEETS_BY_NINTH(Scatterv)
MEETS(Allgather, w6)
MEETS(Allgatherv, w7)
MEETS(Alltoall, w6)
MEETS_BY_NINTH(Alltoallv)
MEETS_BY_NINTH(Alltoallw)
MEETS(Reduce, w6)
MEETS(Allreduce, w5)
MEETS(Reduce_scatter, w5)
MEETS(Reduce_scatter_block, w5)
MEETS(Scan, w5)
MEETS(Exscan, w5)
MEETS(Neighbor_allgather, w6)
MEETS(Neighbor_allgatherv, w7)
MEETS(Neighbor_alltoall, w6)
MEETS_BY_NINTH(Neighbor_alltoallv)
MEETS_BY_NINTH(Neighbor_alltoallw)
