/* sem.h: not served, so that a program that needs it learns why. */
#error "rvmc: there is no memory that processes share: ranks talk by MPI"
