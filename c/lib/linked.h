/* linked.h: what the inline calls of mpi.h ask of parts of the library that a program has linked only if it uses them. */
#ifndef RVMC_LINKED_H
#define RVMC_LINKED_H

/* What a program that uses them has linked: requests of the library's own (lib/owners.h), datatypes that it made
   (lib/transfers.c), and what there is to do at the end. Of the ways to send and to receive, those of the machine have its
   numbers, and others one behind them. */
extern struct rvmc_own {
    long (*asked)(long number, MPI_Request *request, int *flag, MPI_Status *status);
    long (*started)(MPI_Request request);
    MPI_Request (*inner)(MPI_Request request);
    void (*freed)(MPI_Request request);
    int (*is_open_collective)(MPI_Request request);
} rvmc_own;
enum {
    RVMC_BSEND = 64, RVMC_RSEND, RVMC_IBSEND, RVMC_IRSEND, RVMC_OWN_SEND, RVMC_SSEND_INIT, RVMC_BSEND_INIT, RVMC_RSEND_INIT
};
struct rvmc_layout;
extern struct rvmc_derived {
    int (*send)(const char *call, int how, int of, const void *buffer, int count, MPI_Datatype type, int dest, int tag,
                MPI_Comm c, MPI_Request *request);
    int (*receive)(const char *call, int how, int of, void *buffer, int count, MPI_Datatype type, int source, int tag,
                   MPI_Comm c, MPI_Status *status, MPI_Request *request);
    int (*in_parts)(const char *call, long number, const void *buffer, int partitions, MPI_Count count, MPI_Datatype type,
                    int peer, int tag, MPI_Comm c, MPI_Request *request);
    char *(*packed)(const void *buffer, int count, MPI_Datatype type);
    long (*unpacked)(const char *packed, long size, void *place, long count, MPI_Datatype type);
    void (*changed_uses)(MPI_Datatype type, int change);
    struct rvmc_layout *(*layout)(MPI_Datatype type);
    long (*elements)(long bytes, MPI_Datatype type);
    int (*usable)(MPI_Datatype type);
    long (*extent)(MPI_Datatype type);
    long (*bytes)(MPI_Datatype type);
} rvmc_derived;
/* What MPI_Finalize does first: what attributes want, or where a program has collectives that and more (lib/ends.c). */
extern void (*rvmc_at_the_end)(void), (*rvmc_end_of_attributes)(void);

#endif
