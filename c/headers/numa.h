/* numa.h: not served, so that a program that needs it learns why. */
#error "rvmc: a rank has one memory"
