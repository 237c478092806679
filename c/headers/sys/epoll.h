/* epoll.h: not served, so that a program that needs it learns why. */
#error "rvmc: there are no sockets: ranks talk by MPI"
