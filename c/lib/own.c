/* own.c: persistent sends of the modes that the machine's requests don't have, and of datatypes that a program made; and
   buffers and cancelling. Of such a send the machine has a request that never starts; it keeps the number. */
#include <stdlib.h>
#include "../mpi.h"
#include "owners.h"

struct sender {
    const void *buffer;
    long size;
    int mode, dest, tag;
    MPI_Comm communicator;
    MPI_Request inner;                            /* of a synchronous or standard send that was started, or null */
    int count;
    MPI_Datatype type;                            /* which a program made, or null */
};

/* Begins a send of which MPI_Wait asks the machine. A standard one is complete there, but `rvmc explore` looks whether ranks would
   be stuck if it waited for its receive, as MPI lets it. */
static long begin(struct sender *s, long number, const void *buffer)
{
    rvmc_answer a = rvmc_send(number, buffer, s->size, s->dest, s->tag, s->communicator);

    s->inner = a.code ? MPI_REQUEST_NULL : a.value;
    return a.code;
}

static long send(struct sender *s, const void *buffer)
{
    switch (s->mode) {
    case RVMC_BUFFERED:
        return rvmc_buffered(buffer, s->size, s->dest, s->tag, s->communicator);
    case RVMC_READY:
        return rvmc_ready(buffer, s->size, s->dest, s->tag, s->communicator);
    default:
        return begin(s, s->mode == RVMC_STANDARD ? RVMC_STANDARD_ISEND : RVMC_ISSEND, buffer);
    }
}

static long started(MPI_Request request)
{
    struct sender *s = rvmc_owned(request);
    char *packed = s->type ? rvmc_derived.packed(s->buffer, s->count, s->type) : 0;
    long code = s->type && !packed ? RVMC_NO_MEMORY : send(s, packed ? packed : s->buffer);

    free(packed);
    if (!code)
        rvmc_kinds[request] |= RVMC_ACTIVE;
    return code;
}

static MPI_Request inner(MPI_Request request)
{
    return ((struct sender *)rvmc_owned(request))->inner;
}

static long asked(long number, MPI_Request *request, int *flag, MPI_Status *status)
{
    struct sender *s = rvmc_owned(*request);
    rvmc_answer a = {RVMC_OK, 1};

    if ((rvmc_kinds[*request] & RVMC_ACTIVE) && number != RVMC_TESTALL)
        a = rvmc_call(number, s->inner, 0, 0, 0, 0, 0);
    *flag = number == RVMC_WAIT || a.value;
    if (*flag && !a.code) {
        rvmc_kinds[*request] &= ~RVMC_ACTIVE;
        s->inner = MPI_REQUEST_NULL;
    }
    if (*flag && status)
        *status = rvmc_empty_status;
    return a.code;
}

/* A send that was started is freed as MPI_Request_free frees any. */
static void freed(void *thing)
{
    struct sender *s = thing;

    if (s->inner != MPI_REQUEST_NULL)
        rvmc_call(RVMC_TEST, s->inner, 0, 0, 0, 0, 0);
    if (s->type)
        rvmc_derived.changed_uses(s->type, -1);
    free(s);
}

/* The arguments are checked by the machine's own request, of the first bytes. */
long rvmc_own_init(int mode, const void *buffer, long size, int dest, int tag, MPI_Comm c, MPI_Request *request)
{
    static const struct rvmc_owner owner = {asked, started, inner, freed, 0};
    rvmc_answer a = {RVMC_NOT_BEGUN, 0};
    struct sender *s = malloc(sizeof *s);

    if (!rvmc_idle())
        a = s ? rvmc_send_small(RVMC_SEND_INIT, buffer, rvmc_first(size), rvmc_there(c, dest), tag, rvmc_context(c))
              : (rvmc_answer){RVMC_NO_MEMORY, 0};
    if (!rvmc_made(a, request, RVMC_PERSISTENT | RVMC_SENDER)) {
        *s = (struct sender){buffer, size, mode, dest, tag, c, MPI_REQUEST_NULL, 0, 0};
        rvmc_own_request(*request, &owner, s);
    } else {
        free(s);
    }
    return a.code;
}

/* Of data that are packed at each start: where they are, and how many bytes are sent. */
void rvmc_own_init_type(MPI_Request request, const void *buffer, long size, int count, MPI_Datatype type)
{
    struct sender *s = rvmc_owned(request);

    s->buffer = buffer;
    s->size = size;
    s->count = count;
    s->type = type;
    rvmc_derived.changed_uses(type, 1);
}

int MPI_Buffer_attach(void *buffer, int size)
{
    static const char call[] = "MPI_Buffer_attach";

    if (rvmc_idle())
        return rvmc_comm_code(call, RVMC_NOT_BEGUN, MPI_COMM_WORLD);
    if (rvmc_buffer_size >= 0)
        return rvmc_code(call, RVMC_TWO_BUFFERS, 0, buffer, size, MPI_BYTE, 0, 0, MPI_COMM_WORLD);
    if (size < 0)
        return rvmc_code(call, RVMC_BAD_COUNT, 0, buffer, size, MPI_BYTE, 0, 0, MPI_COMM_WORLD);
    rvmc_rests[0].buffer = buffer;
    rvmc_buffer_size = size;
    return MPI_SUCCESS;
}

/* Nothing is waited for: all that was sent is out of the buffer. */
int MPI_Buffer_detach(void *place, int *size)
{
    *(void **)place = rvmc_buffer_size < 0 ? 0 : rvmc_rests[0].buffer;
    *size = rvmc_buffer_size < 0 ? 0 : (int)rvmc_buffer_size;
    rvmc_buffer_size = -1;
    return MPI_SUCCESS;
}

int (*rvmc_cancelled)(MPI_Request request, int *error);

/* A send can't be cancelled any more: its message is on its way. But MPI_Wait may not wait for its receive now (3.8.4), so
   what is complete is completed here: `rvmc explore` would let MPI_Wait wait for a standard one. */
int MPI_Cancel(MPI_Request *request)
{
    long code = RVMC_NO_CANCEL;
    int error, kind = rvmc_kind(*request);

    if (rvmc_cancelled && rvmc_cancelled(*request, &error))
        return error;
    if (*request <= 0 || *request > 255)
        code = RVMC_BAD_REQUEST;
    else if (kind & RVMC_SENDER)
        code = kind & RVMC_PARTITIONED ? RVMC_OK : rvmc_keep_if_complete(*request);
    return rvmc_request_code("MPI_Cancel", code, *request);
}

/* Only MPI_Status_set_cancelled makes a status say so: by a sign that no tag has. */
int MPI_Status_set_cancelled(MPI_Status *status, int flag)
{
    status->rvmc_tag_sign = flag ? 1 : 0;
    return MPI_SUCCESS;
}

int MPI_Test_cancelled(const MPI_Status *status, int *flag)
{
    *flag = status->rvmc_tag_sign == 1;
    return MPI_SUCCESS;
}
