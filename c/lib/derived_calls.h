/* derived_calls.h: the collectives for datatypes that a program makes. They are compiled of the same sources as those for basic
   datatypes, under other names, and rvmc-cc links them with a program that makes a datatype. */
#ifndef RVMC_DERIVED_CALLS_H
#define RVMC_DERIVED_CALLS_H

#ifdef RVMC_OF_DERIVED
#define MPI_Bcast rvmc_derived_Bcast
#define MPI_Gather rvmc_derived_Gather
#define MPI_Gatherv rvmc_derived_Gatherv
#define MPI_Scatter rvmc_derived_Scatter
#define MPI_Scatterv rvmc_derived_Scatterv
#define MPI_Allgather rvmc_derived_Allgather
#define MPI_Allgatherv rvmc_derived_Allgatherv
#define MPI_Alltoall rvmc_derived_Alltoall
#define MPI_Alltoallv rvmc_derived_Alltoallv
#define MPI_Alltoallw rvmc_derived_Alltoallw
#define MPI_Neighbor_allgather rvmc_derived_Neighbor_allgather
#define MPI_Neighbor_allgatherv rvmc_derived_Neighbor_allgatherv
#define MPI_Neighbor_alltoall rvmc_derived_Neighbor_alltoall
#define MPI_Neighbor_alltoallv rvmc_derived_Neighbor_alltoallv
#define MPI_Neighbor_alltoallw rvmc_derived_Neighbor_alltoallw
#else
#define RVMC_ALSO_DERIVED(name) __typeof__(MPI_##name) rvmc_derived_##name __attribute__((weak))
RVMC_ALSO_DERIVED(Bcast);
RVMC_ALSO_DERIVED(Gather);
RVMC_ALSO_DERIVED(Gatherv);
RVMC_ALSO_DERIVED(Scatter);
RVMC_ALSO_DERIVED(Scatterv);
RVMC_ALSO_DERIVED(Allgather);
RVMC_ALSO_DERIVED(Allgatherv);
RVMC_ALSO_DERIVED(Alltoall);
RVMC_ALSO_DERIVED(Alltoallv);
RVMC_ALSO_DERIVED(Alltoallw);
RVMC_ALSO_DERIVED(Neighbor_allgather);
RVMC_ALSO_DERIVED(Neighbor_allgatherv);
RVMC_ALSO_DERIVED(Neighbor_alltoall);
RVMC_ALSO_DERIVED(Neighbor_alltoallv);
RVMC_ALSO_DERIVED(Neighbor_alltoallw);
#endif

#endif
