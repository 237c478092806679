/* owners.h: requests that the library completes by itself: what is done with them is a matter of their kind. Each has a
   number of the machine's, and in rvmc_kinds the sign RVMC_OWN. */
#ifndef RVMC_OWNERS_H
#define RVMC_OWNERS_H

struct rvmc_owner {
    /* TEST or WAIT; or TESTALL, where the machine has completed the inner request, with its status */
    long (*asked)(long number, MPI_Request *request, int *flag, MPI_Status *status);
    long (*started)(MPI_Request request);
    /* what the machine is asked in its place: null if it is complete, RVMC_NOT_YET if it isn't */
    MPI_Request (*inner)(MPI_Request request);
    void (*freed)(void *thing);
    int is_collective;                            /* may not be freed before it is complete (6.12) */
};

#define RVMC_NOT_YET (-1L)

/* Asks whether a request is complete. If it is, MPI_Wait asks nobody any more. Where ranks have several harts, nothing is done. */
long rvmc_keep_if_complete(MPI_Request request);

/* Makes a request one of a kind; the thing is what the kind knows of it. */
void rvmc_own_request(MPI_Request request, const struct rvmc_owner *owner, void *thing);
void *rvmc_owned(MPI_Request request);

extern const MPI_Status rvmc_empty_status;

/* Cancels a request that the program completes itself (grequests.c). Answers whether it is one. */
extern int (*rvmc_cancelled)(MPI_Request request, int *error);

#endif
