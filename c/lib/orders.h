/* orders.h: the order of a communicator's collectives, which has to be the same in all its ranks (MPI 4.1, 6.12, 6.14). Each rank
   keeps how many it has called there, a digest of them all, and which the last 64 were and where. The number and the digest are in
   the head of each message of a collective, and at the end of the communicator its lowest rank compares its own with the others'. */
#ifndef RVMC_ORDERS_H
#define RVMC_ORDERS_H

/* A call: the address of its name from bit 12 on, its root and 1 from bit 8 on, or 0 where it has none, and its operation; and the
   address behind it in the program. All ranks have the same text, so addresses say the same everywhere. */
struct rvmc_step {
    unsigned what, place;
};

RVMC_INLINE const char *rvmc_called(struct rvmc_step step)
{
    return (const char *)(unsigned long)(step.what >> 12);
}

/* How far a communicator has come: its last two calls, the number of the last one, from 1 on, and the digest of all up to it. */
struct rvmc_point {
    struct rvmc_step before, step;
    unsigned number, digest;
};

struct group;
/* Counts the call of a group, whose arguments are accepted. */
void rvmc_count(struct group *g);

/* A call that isn't counted, behind all that are. Its messages say how far the order has come. */
void rvmc_order_stops(struct group *g);

/* Another rank's head says something else. Returns whether its data may be looked at all the same: only an earlier call differs,
   which is told where both are known. */
int rvmc_out_of_order(struct group *g, const void *message, int from, long bytes);
int rvmc_wrong_order(const struct group *g);

/* A communicator is made by a call, which is the one that it's known by; another one has had its number. */
void rvmc_order_begins(MPI_Comm c, const struct group *g);
/* A persistent collective was made, or started: which of its communicator's it is. */
void rvmc_order_lasts(const struct group *g, int number);
void rvmc_order_starts(MPI_Comm c, int number);
/* A communicator is freed by a call. Returns the call's error. */
int rvmc_order_ends(const char *call, MPI_Comm c, const void *place);

/* What tells of the first difference that an error handler returned, of calls or of their data; or 0. */
extern void (*rvmc_unheeded)(void);

/* At MPI_Finalize, and where a rank ends without it; rvmc-cc links these with a program that has collectives. */
void rvmc_end_orders(void);
void rvmc_leave(int code) __attribute__((noreturn));

#endif
