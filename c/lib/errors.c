/* errors.c: what is told of a wrong argument: its value, its name and its class, and what the error handler of the
   communicator makes of it. Each of the functions for one kind of call is linked where such a call is. */
#include <stdarg.h>
#include <stdio.h>
#include <string.h>
#include "../mpi.h"
#include "system.h"
#include "errors.h"
#include "group.h"
#ifndef __clang__
#pragma GCC optimize("Os")
#endif

MPI_Errhandler rvmc_handlers[RVMC_COMMUNICATORS];
void (*rvmc_own_handler)(MPI_Comm c, MPI_Errhandler handler, int error);
int rvmc_state;

/* The names of classes, each behind its number. */
static const char names[] =
    "\001BUFFER\0\002COUNT\0\003TYPE\0\004TAG\0\005COMM\0\006RANK\0\007ROOT\0\010GROUP\0\011OP\0\012TOPOLOGY\0\013DIMS\0\014ARG\0\016TRUNCATE\0\017OTHER\0"
    "\021IN_STATUS\0\023REQUEST\0\034INFO\0\035INFO_KEY\0\036INFO_VALUE\0\037INFO_NOKEY\0\042NO_MEM\0"
    "\054UNSUPPORTED_OPERATION\0\060KEYVAL\0";

static const char *name_of(int error)
{
    const char *name = names;

    while (*name && *name != error)
        name += strlen(name) + 1;
    return *name ? name + 1 : "UNKNOWN";
}

static void put_number(unsigned long number, unsigned base)
{
    if (number >= base)
        put_number(number / base, base);
    putchar("0123456789abcdef"[number % base]);
}

/* A line in parts: %d of a long, %x of an address, and %s. */
static void put_parts(const char *format, va_list values)
{
    for (; *format; format++) {
        long value;

        if (*format != '%') {
            putchar(*format);
            continue;
        }
        if (*++format == 's') {
            fputs(va_arg(values, const char *), stdout);
            continue;
        }
        value = va_arg(values, long);
        if (*format == 'x')
            fputs("0x", stdout);
        else if (value < 0)
            putchar('-');
        put_number(*format == 'x' || value >= 0 ? (unsigned long)value : -(unsigned long)value, *format == 'x' ? 16 : 10);
    }
}

void rvmc_put(const char *format, ...)
{
    va_list values;

    va_start(values, format);
    put_parts(format, values);
    va_end(values);
}

void rvmc_say(const char *format, ...)
{
    va_list values;

    va_start(values, format);
    rvmc_begin_line();
    put_parts(format, values);
    putchar('\n');
    va_end(values);
}

int rvmc_handled(MPI_Comm c, int error)
{
    MPI_Errhandler handler = rvmc_handlers[c > 0 && c < RVMC_COMMUNICATORS ? c : 0];

    if (rvmc_state != RVMC_BEGUN)
        return 0;
    if (handler > MPI_ERRORS_ABORT)
        rvmc_own_handler(c, handler, error);
    return handler == MPI_ERRORS_ARE_FATAL || handler == MPI_ERRORS_ABORT ? 0 : error;
}

int rvmc_raise(const char *call, MPI_Comm c, int error, const char *argument, const char *format, ...)
{
    va_list values;
    int answer = rvmc_handled(c, error);

    if (answer)
        return answer;
    rvmc_begin_line();
    fputs(call, stdout);
    fputs(": ", stdout);
    va_start(values, format);
    put_parts(format, values);
    va_end(values);
    fputs(" (", stdout);
    if (argument) {
        fputs(argument, stdout);
        fputs("; ", stdout);
    }
    fputs("MPI_ERR_", stdout);
    fputs(name_of(error), stdout);
    fputs(")\n", stdout);
    return 0;
}

static long size_of(MPI_Comm c)
{
    const struct rvmc_communicator *of = rvmc_known(c);

    return of ? of->size : 0;
}

int rvmc_wrong_comm(const char *call, long code, MPI_Comm c)
{
    if (code == RVMC_NOT_BEGUN)
        return rvmc_raise(call, c, MPI_ERR_OTHER, 0, rvmc_state == RVMC_OVER ? "after MPI_Finalize" : "before MPI_Init");
    if (code == RVMC_BEGUN_TWICE)
        return rvmc_raise(call, c, MPI_ERR_OTHER, 0, "MPI is initialized already");
    if (c == MPI_COMM_NULL)
        return rvmc_raise(call, c, MPI_ERR_COMM, "comm", "the communicator is MPI_COMM_NULL");
    return rvmc_raise(call, c, MPI_ERR_COMM, "comm", c > 0 && c < RVMC_COMMUNICATORS && rvmc_table[c].size
                      ? "this rank is no member of the communicator" : "%d is no communicator", (long)c);
}

/* A null pointer, or bytes that aren't in the memory, or that a receive would write into the program. */
static int wrong_buffer(const char *call, MPI_Comm c, const char *argument, const void *buffer, long size)
{
    if (!buffer)
        return rvmc_raise(call, c, MPI_ERR_BUFFER, argument, "the buffer is a null pointer");
    if (buffer == MPI_IN_PLACE)
        return rvmc_raise(call, c, MPI_ERR_BUFFER, argument, "MPI_IN_PLACE isn't a buffer here");
    return rvmc_raise(call, c, MPI_ERR_BUFFER, argument, (const char *)buffer < rvmc_stacks
                      ? "%d bytes at %x are text of the program, or constants" : "%d bytes at %x aren't all in the memory", size,
                      (long)buffer);
}

static int wrong_count(const char *call, MPI_Comm c, const char *count_name, const char *type_name, long count,
                       MPI_Datatype type)
{
    if (!RVMC_SIZE_OF(type))
        return rvmc_raise(call, c, MPI_ERR_TYPE, type_name, type ? "%d is no datatype" : "the datatype is MPI_DATATYPE_NULL",
                          (long)type);
    return rvmc_raise(call, c, MPI_ERR_COUNT, count_name, count < 0 ? "count %d is negative" : "count %d is too large", count);
}

/* What the machine can't tell apart, of any call. */
static int wrong_otherwise(const char *call, long code, MPI_Comm c)
{
    switch (code) {
    case RVMC_NOT_READY:
        return rvmc_raise(call, c, MPI_ERR_OTHER, 0, "no receive for this message was posted before");
    case RVMC_TWO_BUFFERS:
        return rvmc_raise(call, c, MPI_ERR_BUFFER, "buffer", "a buffer is attached already");
    case RVMC_NO_BUFFER:
        return rvmc_raise(call, c, MPI_ERR_BUFFER, 0, rvmc_buffer_size < 0 ? "no buffer is attached: MPI_Buffer_attach"
                          : "the buffer of %d bytes has no room for the message and %d more", rvmc_buffer_size,
                          (long)MPI_BSEND_OVERHEAD);
    case RVMC_NO_CHANNEL:
        return rvmc_raise(call, c, MPI_ERR_OTHER, 0, "no link is free: rvmc-cc --link FROM,TO declares one");
    case RVMC_SHAPE_DIFFERS:
        return rvmc_raise(call, c, MPI_ERR_ARG, 0, "the other side has another total of bytes");
    case RVMC_NO_MEMORY:
        return rvmc_raise(call, c, MPI_ERR_NO_MEM, 0, "the heap is full: rvmc-cc --memory gives more");
    case RVMC_TOO_MANY:
        return rvmc_raise(call, c, MPI_ERR_NO_MEM, 0, "too many collectives of this communicator are open: one that was begun "
                          "320 before, or 128 persistent ones");
    case RVMC_LARGE_PROBE:
        return rvmc_raise(call, c, MPI_ERR_UNSUPPORTED_OPERATION, 0, "a message of 4096 bytes or more was probed for: with "
                          "several harts use MPI_Mprobe, and no persistent receive");
    default:
        return rvmc_raise(call, c, MPI_ERR_NO_MEM, 0, "255 requests are open, or 65536 messages are held");
    }
}

/* Which name an argument has: of the half of MPI_Sendrecv that sends, of that which receives, or of any other call. */
static const char *argument(int of, const char *out, const char *in, const char *other)
{
    return of & RVMC_OUT ? out : of & RVMC_IN ? in : other;
}

int rvmc_wrong(const char *call, long code, const void *buffer, long count, MPI_Datatype type, int peer, int tag, MPI_Comm c)
{
    int of = (int)(code & ~255L);

    code &= 255;
    switch (code) {
    case RVMC_BAD_COMM:
        if (c == MPI_COMM_SELF)
            return rvmc_raise(call, c, MPI_ERR_OTHER, "comm", rvmc_no_context);
        return rvmc_wrong_comm(call, code, c);
    case RVMC_NOT_BEGUN:
        return rvmc_wrong_comm(call, code, c);
    case RVMC_BAD_RANK:
        return rvmc_raise(call, c, MPI_ERR_RANK, of & RVMC_SOURCE ? "source" : "dest",
                          "rank %d, but the communicator has %d", peer == RVMC_NO_SOURCE ? MPI_ANY_SOURCE : (long)peer, size_of(c));
    case RVMC_BAD_TAG:
        return rvmc_raise(call, c, MPI_ERR_TAG, argument(of, "sendtag", "recvtag", "tag"),
                          "tag %d, but tags are 0 to %d", (long)tag, (long)RVMC_MOST_TAG);
    case RVMC_BAD_COUNT:
        return wrong_count(call, c, argument(of, "sendcount", "recvcount", "count"),
                           argument(of, "sendtype", "recvtype", "datatype"), count, type);
    case RVMC_BAD_BUFFER:
        return wrong_buffer(call, c, argument(of, "sendbuf", "recvbuf", "buf"), buffer, count * RVMC_SIZE_OF(type));
    case RVMC_BAD_MESSAGE:
        return rvmc_raise(call, c, MPI_ERR_REQUEST, "message", "no message that was probed for has this handle");
    case RVMC_TRUNCATED:
        return rvmc_raise(call, c, MPI_ERR_TRUNCATE, argument(of, 0, "recvcount", "count"),
                          "the message is longer than the buffer of %d bytes", count * RVMC_SIZE_OF(type));
    default:
        return wrong_otherwise(call, code, c);
    }
}

/* What the error handler made of a collective that didn't wait, when it was told. */
int rvmc_later_error;

int rvmc_wrong_request(const char *call, long code, MPI_Request request)
{
    const MPI_Comm c = MPI_COMM_WORLD;

    switch (code) {
    case RVMC_NOT_BEGUN:
        return rvmc_wrong_comm(call, code, c);
    case RVMC_BAD_REQUEST:
        if (request == MPI_REQUEST_NULL)
            return rvmc_raise(call, c, MPI_ERR_REQUEST, "request", "no open request, or one that this call doesn't take");
        return rvmc_raise(call, c, MPI_ERR_REQUEST, "request", "%d is no open request, or none that this call takes", request);
    case RVMC_LATER_FAILED:
        return rvmc_later_error;
    case RVMC_STILL_ACTIVE:
        return rvmc_raise(call, c, MPI_ERR_REQUEST, "request", "the request is active");
    case RVMC_OPEN_COLLECTIVE:
        return rvmc_raise(call, c, MPI_ERR_REQUEST, "request", "the request of a collective may not be freed before it is complete");
    case RVMC_NOT_ACTIVE:
        return rvmc_raise(call, c, MPI_ERR_REQUEST, "request", "the request isn't started");
    case RVMC_ALREADY_READY:
        return rvmc_raise(call, c, MPI_ERR_ARG, "partition", "the partition was made ready before, since the last start");
    case RVMC_BAD_COUNT:
        return rvmc_raise(call, c, MPI_ERR_COUNT, "count", "the count is negative or more than 255");
    case RVMC_BAD_BUFFER:
        return rvmc_raise(call, c, MPI_ERR_ARG, "array_of_requests", "a null pointer, or not in the memory");
    case RVMC_TRUNCATED:
        return rvmc_raise(call, c, MPI_ERR_TRUNCATE, 0, "the message is longer than the buffer of its receive");
    case RVMC_PARTS_AMONG:
        return rvmc_raise(call, c, MPI_ERR_UNSUPPORTED_OPERATION, 0, "partitioned requests are tested one by one");
    case RVMC_NO_CANCEL:
        return rvmc_raise(call, c, MPI_ERR_UNSUPPORTED_OPERATION, "request", "a receive can't be cancelled: receive something");
    case RVMC_SEVERAL_HARTS:
        return rvmc_raise(call, c, MPI_ERR_UNSUPPORTED_OPERATION, 0, "with several harts use MPI_Test");
    default:
        return wrong_otherwise(call, code, c);
    }
}

/* Of MPI_Psend_init and MPI_Precv_init where size is 0 or more; else of a call that names a partition. */
int rvmc_wrong_parts(const char *call, long code, long parts, long size)
{
    const MPI_Comm c = MPI_COMM_WORLD;

    if (size < 0)
        return rvmc_raise(call, c, MPI_ERR_ARG, "partition", "the request has no partition %d", parts);
    if (code == RVMC_BAD_PARTITION)
        return rvmc_raise(call, c, MPI_ERR_ARG, "partitions", "%d partitions, but 1 to 16 are served", parts);
    return rvmc_raise(call, c, MPI_ERR_COUNT, "count", "a partition of %d bytes, but 8 to 128 in whole 8s are served", size);
}

int rvmc_wrong_collective(const struct group *g)
{
    const char *call = g->call;
    const MPI_Comm c = g->communicator;

    switch (g->code) {
    case RVMC_NOT_BEGUN:
    case RVMC_BAD_COMM:
        return rvmc_wrong_comm(call, g->code, c);
    case RVMC_BAD_ROOT:
        return rvmc_raise(call, c, MPI_ERR_ROOT, "root", "root %d, but the communicator has %d", g->value, (long)g->size);
    case RVMC_BAD_COUNT:
        return rvmc_raise(call, c, MPI_ERR_COUNT, g->argument, "count %d is negative", g->value);
    case RVMC_BAD_TYPE:
        return rvmc_raise(call, c, MPI_ERR_TYPE, g->argument, RVMC_KIND_OF(g->value) == RVMC_DERIVED
                          ? "the datatype isn't committed, or was freed" : "the datatype is MPI_DATATYPE_NULL, or none");
    case RVMC_BAD_OP:
        if (!g->value)
            return rvmc_raise(call, c, MPI_ERR_OP, "op", "the operation is MPI_OP_NULL, or none");
        return rvmc_raise(call, c, MPI_ERR_OP, "op", "%s isn't an operation of %s", rvmc_op_name((MPI_Op)g->value),
                          RVMC_KIND_OF(g->expected) == RVMC_DERIVED ? "a derived datatype"
                                                                    : rvmc_type_name((MPI_Datatype)g->expected));
    case RVMC_BAD_BUFFER:
    case RVMC_IN_PLACE:
        return wrong_buffer(call, c, g->argument, (const void *)g->value, g->expected);
    case RVMC_ALIASED:
        return rvmc_raise(call, c, MPI_ERR_BUFFER, g->argument, "both buffers are at %x: MPI_IN_PLACE says that", g->value);
    case RVMC_MISMATCH:
        return rvmc_wrong_mismatch(g);
    case RVMC_MISORDER:
        return rvmc_wrong_order(g);
    case RVMC_OTHER_COUNT:
        return rvmc_raise(call, c, MPI_ERR_TRUNCATE, g->argument, "rank %d gave another count, where %d bytes are expected",
                          g->value, g->expected);
    default:
        return wrong_otherwise(call, g->code, c);
    }
}
