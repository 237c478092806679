/* owners.c: requests that the library completes by itself (owners.h), and what a program asks of a request that stays (MPI
   4.1, 3.7.6). */
#include <stdlib.h>
#include "../mpi.h"
#include "owners.h"

static const struct rvmc_owner *owners[256];
static void *things[256];
static MPI_Status *kept[256];                     /* of complete requests whose status was asked for */

const MPI_Status rvmc_empty_status = {MPI_ANY_SOURCE, -1, MPI_ANY_TAG, -1, 0, MPI_SUCCESS};

/* What was kept of a complete request. */
static long asked_kept(MPI_Request *request, int *flag, MPI_Status *status)
{
    int kind = rvmc_kinds[*request];

    *flag = 1;
    if (status)
        *status = *kept[*request];
    if (kind & (RVMC_PERSISTENT | RVMC_PARTITIONED)) {
        rvmc_kinds[*request] = (unsigned char)(kind & ~(RVMC_KEPT | RVMC_ACTIVE));
        return RVMC_OK;
    }
    rvmc_kinds[*request] = 0;
    rvmc_call(RVMC_TEST, *request, 0, 0, 0, 0, 0);
    *request = MPI_REQUEST_NULL;
    return RVMC_OK;
}

static long asked(long number, MPI_Request *request, int *flag, MPI_Status *status)
{
    if (rvmc_kinds[*request] & RVMC_KEPT)
        return asked_kept(request, flag, status);
    return owners[*request]->asked(number, request, flag, status);
}

static long started(MPI_Request request)
{
    return rvmc_kinds[request] & RVMC_ACTIVE ? RVMC_STILL_ACTIVE : owners[request]->started(request);
}

static MPI_Request inner(MPI_Request request)
{
    int kind = rvmc_kinds[request];

    if ((kind & RVMC_KEPT) || ((kind & RVMC_PERSISTENT) && !(kind & RVMC_ACTIVE)))
        return MPI_REQUEST_NULL;
    return owners[request]->inner(request);
}

static void freed(MPI_Request request)
{
    owners[request]->freed(things[request]);
}

static int is_open_collective(MPI_Request request)
{
    int kind = rvmc_kinds[request];

    return owners[request]->is_collective && !(kind & RVMC_KEPT) && (!(kind & RVMC_PERSISTENT) || (kind & RVMC_ACTIVE));
}

static void begin(void)
{
    rvmc_own = (struct rvmc_own){asked, started, inner, freed, is_open_collective};
}

void rvmc_own_request(MPI_Request request, const struct rvmc_owner *owner, void *thing)
{
    owners[request] = owner;
    things[request] = thing;
    rvmc_kinds[request] |= RVMC_OWN;
    begin();
}

void *rvmc_owned(MPI_Request request)
{
    return things[request];
}

/* --- what is asked of a request that stays --- */

/* Opens requests that are complete until one has the number that TEST has freed. */
static void open_again(MPI_Request request)
{
    unsigned char others[256];
    int count = 0;
    long got;

    while ((got = rvmc_call(RVMC_ISEND, 0, 0, MPI_PROC_NULL, 0, MPI_COMM_WORLD, 0).value) != request && got)
        others[count++] = (unsigned char)got;
    while (count)
        rvmc_call(RVMC_TEST, others[--count], 0, 0, 0, 0, 0);
}

static long keep(MPI_Request request, int kind, const MPI_Status *status)
{
    if (!kept[request])
        kept[request] = malloc(sizeof **kept);
    if (!kept[request])
        return RVMC_NO_MEMORY;
    *kept[request] = *status;
    if (!(kind & (RVMC_PERSISTENT | RVMC_PARTITIONED))) {
        open_again(request);
        kind &= ~(RVMC_LARGE | RVMC_OWN | RVMC_ELSEWHERE);
    }
    rvmc_kinds[request] = (unsigned char)(kind | RVMC_KEPT);
    begin();
    return RVMC_OK;
}

/* The machine tells whether a request is complete by completing it. So what is complete is kept here. */
static long looked(MPI_Request request, int *flag, MPI_Status *status)
{
    int kind = rvmc_kind(request), persistent = kind & (RVMC_PERSISTENT | RVMC_PARTITIONED);
    MPI_Request copy = request;
    long code;

    *status = rvmc_empty_status;
    *flag = 1;
    if (request == MPI_REQUEST_NULL || (persistent && !(kind & RVMC_ACTIVE)))
        return RVMC_OK;
    if (kind & RVMC_KEPT) {
        *status = *kept[request];
        return RVMC_OK;
    }
    if (RVMC_NUMBER(rvmc_harts) > 1 && !persistent)
        return RVMC_SEVERAL_HARTS;
    code = rvmc_asked(RVMC_TEST, &copy, flag, status);
    if (*flag && !code)
        code = keep(request, kind, status);
    return code;
}

long rvmc_keep_if_complete(MPI_Request request)
{
    MPI_Status found;
    int flag;
    long code = looked(request, &flag, &found);

    return code == RVMC_SEVERAL_HARTS ? RVMC_OK : code;
}

int MPI_Request_get_status(MPI_Request request, int *flag, MPI_Status *status)
{
    MPI_Status found;
    long code = rvmc_idle() ? RVMC_NOT_BEGUN : looked(request, flag, &found);

    if (!code && *flag && status)
        *status = found;
    return rvmc_request_code("MPI_Request_get_status", code, request);
}
