/* netdb.h: nothing. Programs include it beside MPI and use none of it; sys/socket.h says that there are no sockets. */
