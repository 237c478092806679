/* omp.h: not served, so that a program that needs it learns why. */
#error "rvmc: there is no OpenMP: <threads.h> and --harts give threads"
