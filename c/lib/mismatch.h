/* mismatch.h: the head of a collective's messages. The first message from a rank to another in each call says what call the
   rank is in and what data it has, so that one in another call, or with other data, is told (docs/C.md, Collectives that don't
   match). */
#ifndef RVMC_MISMATCH_H
#define RVMC_MISMATCH_H

#include "orders.h"

struct rvmc_head {
    struct rvmc_point point;
    unsigned signature;
    int bytes, count;
    unsigned type;
};
enum { RVMC_HEAD = sizeof(struct rvmc_head), RVMC_HEADED = RVMC_PIECE - RVMC_HEAD };

/* A hash of a type signature: of the basic elements, one behind the other, whatever counts and datatypes they come by (3.3.1).
   It is x * factor + sum for what stands before it with the hash x, modulo a prime. A signature with MPI_PACKED is 0, which
   is like any. */
struct rvmc_signature {
    unsigned long factor, sum;
};
enum { RVMC_SIGNATURE_BASE = 1000003 };
#define RVMC_SIGNATURE_PRIME 2147483647ul

RVMC_INLINE struct rvmc_signature rvmc_signature_then(struct rvmc_signature a, struct rvmc_signature b)
{
    return (struct rvmc_signature){a.factor * b.factor % RVMC_SIGNATURE_PRIME,
                                   (a.sum * b.factor + b.sum) % RVMC_SIGNATURE_PRIME};
}
struct rvmc_signature rvmc_signature_times(struct rvmc_signature one, long count);
struct rvmc_signature rvmc_signature_of(MPI_Datatype type);

/* Of derived datatypes, where a program makes one. */
extern struct rvmc_signature (*rvmc_signature_of_derived)(MPI_Datatype type);

#endif
