/* checked.h: what the files of --check share (docs/C.md, Misuse). The program's calls come to functions of these files,
   which look at the arguments and then make the call by mpi.h. What is wrong is told in one line, and the hart traps behind
   the call: rvmc-cc has put a test of rvmc_told there. */
#ifndef RVMC_CHECKED_H
#define RVMC_CHECKED_H

#include <stddef.h>
#include "../mpi.h"
#include "check.h"
#include "errors.h"
#include "places.h"
#include "say.h"
#include "system.h"
#ifndef __clang__
#pragma GCC optimize("Os")
#endif

/* The address behind the call of the program that led here, which the table of places has. */
#define RVMC_BEHIND ((unsigned)(unsigned long)__builtin_return_address(0))

/* --- telling (check.c) --- */

extern _Thread_local int rvmc_told;

/* Whether something is to be told of a place, and not for the second time; by a call, and by another place that matters. */
int rvmc_check_is_new(unsigned behind, unsigned other);
void rvmc_check_trap(void);
#define RVMC_TELL(behind, other, ...) \
    do { \
        if (rvmc_check_is_new(behind, other)) { \
            rvmc_say(__VA_ARGS__); \
            rvmc_check_trap(); \
        } \
    } while (0)

/* The same for what may be right: the run goes on. */
#define RVMC_WARN(behind, other, format, ...) \
    do { \
        if (rvmc_check_is_new(behind, other)) \
            rvmc_say("warning: " format, __VA_ARGS__); \
    } while (0)

/* The line of a call, as ring.c:12; and a call with its line, as MPI_Send at ring.c:12. The last eight texts stay. */
const char *rvmc_check_line(unsigned behind);
const char *rvmc_check_call(const char *call, unsigned behind);

/* What traps.S calls before an integer is divided by zero; it may trap behind that. */
void rvmc_check_division(unsigned long behind);

/* The tables of a rank change under the heap's lock, where the rank has several harts; accesses are looked at without. */
void rvmc_check_lock(void);
void rvmc_check_unlock(void);
extern volatile unsigned rvmc_check_changes;

/* --- accesses and active buffers (check_access.c) --- */

struct rvmc_record;

/* A part of an active buffer: count pieces of length bytes, each stride bytes behind the one before. */
struct rvmc_region {
    unsigned low, length, stride, count;
    const struct rvmc_record *of;
    char is_received;                             /* written by the request: it may not even be read */
    char is_variable;                             /* not a buffer, but where the program has the request */
    short partition;                              /* of a partitioned transfer, counted from 1; else 0 */
    unsigned ready;                               /* behind the MPI_Pready of a partition that is sent */
};
void rvmc_region_add(const struct rvmc_record *record, const struct rvmc_region *region);
void rvmc_regions_drop(const struct rvmc_record *record, int buffers, int variable);
void rvmc_region_drop_partition(const struct rvmc_record *record, int partition);
const struct rvmc_region *rvmc_region_hit(unsigned low, unsigned length, int is_written);
void rvmc_check_forget_block(void);
void rvmc_check_know_block(unsigned at, unsigned size);

/* --- the heap (check_heap.c) --- */

/* Says what is wrong with a range of the heap, or nothing. `who` is a line, or a call with its line. */
enum { RVMC_IS_READ, RVMC_IS_WRITTEN };
void rvmc_heap_check(const char *who, unsigned behind, unsigned at, unsigned size, int is_written, int is_element);
void rvmc_heap_check_written(const char *who, unsigned behind, unsigned at, unsigned size);
/* Memory of the library's own, outside the program's blocks. */
void *rvmc_check_take(long size);
void rvmc_check_give_back(void *memory);
void rvmc_heap_at_the_end(unsigned behind);
int rvmc_heap_has(long word, const void *but);
char *rvmc_heap_copy(const char *text, size_t length, int is_part, unsigned behind);

/* Looks at memory that a call reads or writes. */
void rvmc_check_range(const char *call, unsigned behind, const void *at, long size, int is_written);

/* --- datatypes (check_types.c) --- */

/* A datatype as --check sees it: how many bytes and elements a value has, and what it takes in memory. Not known: 0 bytes. */
struct rvmc_type {
    long size, extent, elements;
};
struct rvmc_type rvmc_type_seen(MPI_Datatype type);
unsigned rvmc_type_hash(MPI_Datatype type, long count, long elements);
long rvmc_type_elements(MPI_Datatype type, long count);
const char *rvmc_type_said(MPI_Datatype type);
void rvmc_type_pack(char *to, const void *from, long count, MPI_Datatype type);
void rvmc_type_unpack(void *to, const char *from, long bytes, long count, MPI_Datatype type);
void rvmc_type_regions(const struct rvmc_record *record, const void *buffer, long count, MPI_Datatype type, int is_received);
void rvmc_check_buffer(const char *call, unsigned behind, const void *buffer, long count, MPI_Datatype type, int is_written);

void rvmc_check_apart(const char *call, unsigned behind, const void *out, long out_count, MPI_Datatype out_type, const void *in,
                      long in_count, MPI_Datatype in_type);

/* --- requests (check_requests.c) --- */

enum {
    RVMC_IS_SEND = 1, RVMC_IS_RECEIVE = 2, RVMC_IS_PERSISTENT = 4, RVMC_IS_ACTIVE = 8, RVMC_IS_DELIVERED = 16
};
/* A buffer of a persistent collective, which is active from each start to its completion. */
struct rvmc_kept {
    struct rvmc_kept *next;
    void *buffer;
    long count;
    MPI_Datatype type;
    int is_written;
};
struct rvmc_record {
    struct rvmc_record *next;
    MPI_Request handle, raw;
    MPI_Request *variable;                        /* where the program keeps the handle */
    const char *call;
    unsigned behind;                              /* of the call that began it, and of the last MPI_Start */
    int kind, peer, tag;
    MPI_Comm communicator;
    void *buffer;
    long count;
    MPI_Datatype type;
    char *room;                                   /* the message with its head */
    long size;
    int partitions;                               /* of a partitioned transfer: of each of them is `count` */
    struct rvmc_kept *parts;                      /* of a persistent collective */
};
struct rvmc_record *rvmc_record_new(const char *call, unsigned behind, int kind);
void rvmc_record_open(struct rvmc_record *record, MPI_Request *request, MPI_Request raw);
void rvmc_record_gone(struct rvmc_record *record);
struct rvmc_record *rvmc_record_of(MPI_Request request);
int rvmc_record_completed(const char *call, unsigned behind, struct rvmc_record *record, MPI_Request *request,
                          MPI_Status *status, MPI_Status *own, long code);
void rvmc_request_overwritten(unsigned behind, const struct rvmc_record *record, unsigned long stack);
void rvmc_variable_lost(const char *call, unsigned behind, const MPI_Request *request);
void rvmc_requests_at_the_end(unsigned behind);

/* --- messages (check_messages.c, check_persistent.c) --- */

/* What stands before the data of each message. */
struct rvmc_letter {
    unsigned mark, hash, elements, bytes, behind;
    unsigned char call, sender;                   /* which of the calls that send; the rank in MPI_COMM_WORLD */
    unsigned short unused;
    unsigned type, count;
};
enum { RVMC_LETTER = sizeof(struct rvmc_letter), RVMC_LETTER_MARK = 0x4d454843 };
int rvmc_has_letter(const void *buffer, int count, MPI_Datatype type, int peer);
void rvmc_write_letter(const struct rvmc_record *r);
void rvmc_lend_room(int bytes);
long rvmc_delivered(unsigned behind, const struct rvmc_record *r, MPI_Status *status, long code);
void rvmc_without_head(MPI_Status *status);
struct group;
int rvmc_all_received(struct group *g);
void rvmc_messages_at_the_end(unsigned behind);

/* The source that the program names, as the machine has it; and the other way round, in a status. A source of -1 is none: the
   machine refuses it under another number, and errors.c tells -1. */
RVMC_INLINE int rvmc_source_of(int source)
{
    if (source == RVMC_CHECKED_ANY_SOURCE)
        return MPI_ANY_SOURCE;
    return source == MPI_ANY_SOURCE ? RVMC_NO_SOURCE : source;
}
RVMC_INLINE void rvmc_show_source(MPI_Status *status)
{
    if (status->MPI_SOURCE == MPI_ANY_SOURCE)
        status->MPI_SOURCE = RVMC_CHECKED_ANY_SOURCE;
}

/* --- the environment (check_environment.c) --- */

/* Each call that --check stands around begins and ends by these: they see by which thread it is made. */
void rvmc_check_begin(const char *call, unsigned behind);

/* --- communicators, datatypes and operations (check_handles.c) --- */

void rvmc_check_communicator(const char *call, unsigned behind, MPI_Comm c);
void rvmc_handles_at_the_end(unsigned behind);

#endif
