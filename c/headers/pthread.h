/* pthread.h: not served, so that a program that needs it learns why. */
#error "rvmc: there are no POSIX threads: <threads.h> and --harts give those of C11"
