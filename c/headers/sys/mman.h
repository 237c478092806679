/* mman.h: not served, so that a program that needs it learns why. */
#error "rvmc: there is no mapped memory: use malloc"
