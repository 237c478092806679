/* grequests.c: generalized requests (MPI 4.1, 13.2), of which the program itself says when they are complete. Of each the
   machine has a request that never starts; it keeps the number. */
#include <stdlib.h>
#include "../mpi.h"
#include "errors.h"
#include "owners.h"

struct general {
    MPI_Grequest_query_function *query;
    MPI_Grequest_free_function *free;
    MPI_Grequest_cancel_function *cancel;
    void *state;
    MPI_Request number;
    volatile int complete;                        /* another hart may say so */
    int freed;                                    /* by MPI_Request_free, before it was complete */
};

static struct general *all[256];

static struct general *general_of(MPI_Request request)
{
    return request > 0 && request < 256 ? all[request] : 0;
}

static rvmc_answer take_number(void)
{
    return rvmc_call(RVMC_SEND_INIT, 0, 0, MPI_PROC_NULL, 0, MPI_COMM_WORLD, 0);
}

static void give_number(long number)
{
    rvmc_call(RVMC_REQUEST_FREE, number, 0, 0, 0, 0, 0);
}

/* Ends a request, and answers what the program's function does. */
static int end(struct general *g)
{
    int error = g->free(g->state);

    all[g->number] = 0;
    free(g);
    return error;
}

/* An error of a function of the program's is one of the call (13.2). */
static int answered(int error)
{
    return rvmc_raise("MPI_Grequest_start", MPI_COMM_WORLD, error, 0, "a function of the request answered %d", (long)error);
}

/* The status is asked for, and then what the program made is freed. */
static long finished(struct general *g, MPI_Request *request, MPI_Status *status)
{
    int error = g->query(g->state, status), last = end(g);

    give_number(*request);
    *request = MPI_REQUEST_NULL;
    if (!error && !last)
        return RVMC_OK;
    rvmc_later_error = answered(error ? error : last);
    return RVMC_LATER_FAILED;
}

/* Waiting polls: only another hart can complete it then. */
static long asked(long number, MPI_Request *request, int *flag, MPI_Status *status)
{
    struct general *g = all[*request];
    MPI_Status own, *where = status ? status : &own;

    while (number == RVMC_WAIT && !g->complete)
        ;
    *flag = g->complete;
    if (!*flag)
        return RVMC_OK;
    *where = rvmc_empty_status;
    return finished(g, request, where);
}

static long started(MPI_Request request)
{
    (void)request;
    return RVMC_BAD_REQUEST;
}

static MPI_Request inner(MPI_Request request)
{
    return all[request]->complete ? MPI_REQUEST_NULL : RVMC_NOT_YET;
}

/* The machine has given the number back. By it the program still completes the request, so it is taken again. */
static void freed(void *thing)
{
    struct general *g = thing;
    long others[256], got;
    int count = 0;

    if (g->complete) {
        end(g);
        return;
    }
    g->freed = 1;
    while ((got = take_number().value) != g->number && got)
        others[count++] = got;
    while (count)
        give_number(others[--count]);
}

static int cancelled(MPI_Request request, int *error)
{
    struct general *g = general_of(request);

    if (!g)
        return 0;
    *error = g->cancel(g->state, g->complete);
    if (*error)
        *error = rvmc_trapped(answered(*error));
    return 1;
}

int MPI_Grequest_start(MPI_Grequest_query_function *query, MPI_Grequest_free_function *free_it,
                       MPI_Grequest_cancel_function *cancel, void *state, MPI_Request *request)
{
    static const struct rvmc_owner owner = {asked, started, inner, freed, 0};
    rvmc_answer a = {RVMC_NOT_BEGUN, 0};
    struct general *g = malloc(sizeof *g);

    if (!rvmc_idle())
        a = g ? take_number() : (rvmc_answer){RVMC_NO_MEMORY, 0};
    if (rvmc_made(a, request, 0)) {
        free(g);
        return rvmc_request_code("MPI_Grequest_start", a.code, MPI_REQUEST_NULL);
    }
    *g = (struct general){query, free_it, cancel, state, *request, 0, 0};
    all[*request] = g;
    rvmc_cancelled = cancelled;
    rvmc_own_request(*request, &owner, g);
    return MPI_SUCCESS;
}

int MPI_Grequest_complete(MPI_Request request)
{
    struct general *g = general_of(request);
    int error;

    if (!g || g->complete)
        return rvmc_request_code("MPI_Grequest_complete", RVMC_BAD_REQUEST, request);
    g->complete = 1;
    if (!g->freed)
        return MPI_SUCCESS;
    give_number(request);
    error = end(g);
    return error ? rvmc_trapped(answered(error)) : MPI_SUCCESS;
}
