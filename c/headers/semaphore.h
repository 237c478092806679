/* semaphore.h: not served, so that a program that needs it learns why. */
#error "rvmc: there are no semaphores: <threads.h> has mutexes"
