/* folding.h: reductions of data of a datatype that a program made, by its own function. rvmc-cc links them with a program that
   makes a datatype. */
#ifndef RVMC_FOLDING_H
#define RVMC_FOLDING_H

/* The function of an operation that a program made, or null. */
MPI_User_function *rvmc_own_op(MPI_Op op);

/* Memory for so many of a datatype: base is where the first one is, as its buffer would be. */
struct rvmc_values {
    char *memory, *base;
};
#define RVMC_WEAK __attribute__((weak))
RVMC_WEAK struct rvmc_values rvmc_new_values(long count, MPI_Datatype type);

RVMC_WEAK int rvmc_derived_Reduce(const void *from, void *to, int count, MPI_Datatype type, MPI_Op op, int root, MPI_Comm c);
RVMC_WEAK int rvmc_derived_Allreduce(const void *from, void *to, int count, MPI_Datatype type, MPI_Op op, MPI_Comm c);
RVMC_WEAK int rvmc_derived_Reduce_scatter(const void *from, void *to, const int counts[], MPI_Datatype type, MPI_Op op,
                                          MPI_Comm c);
RVMC_WEAK int rvmc_derived_Reduce_scatter_block(const void *from, void *to, int count, MPI_Datatype type, MPI_Op op,
                                                MPI_Comm c);
RVMC_WEAK int rvmc_derived_Scan(const void *from, void *to, int count, MPI_Datatype type, MPI_Op op, MPI_Comm c);
RVMC_WEAK int rvmc_derived_Exscan(const void *from, void *to, int count, MPI_Datatype type, MPI_Op op, MPI_Comm c);
RVMC_WEAK int rvmc_derived_Reduce_local(const void *from, void *to, int count, MPI_Datatype type, MPI_Op op);

#endif
