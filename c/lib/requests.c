/* requests.c: the calls over several requests that mpi.h doesn't have inline. */
#include "../mpi.h"
#include "errors.h"
#include "layouts.h"
#include "owners.h"

unsigned char rvmc_kinds[256];
struct rvmc_rest rvmc_rests[256];
struct rvmc_own rvmc_own;
struct rvmc_derived rvmc_derived;
int (*rvmc_attributes_of_types)(MPI_Datatype from, MPI_Datatype to);
void (*rvmc_end_of_attributes)(void);
extern void (*rvmc_at_the_end)(void) __attribute__((weak, alias("rvmc_end_of_attributes")));
long rvmc_buffer_size = -1;                       /* of MPI_Buffer_attach */

/* Whether the machine's own call for an array doesn't do: it takes 255 plain requests at most. */
int rvmc_one_by_one(int count, const MPI_Request *requests)
{
    if (rvmc_handlers[0] != MPI_ERRORS_ARE_FATAL || count > 255)
        return 1;
    for (int i = 0; i < count; i++)
        if (rvmc_kind(requests[i]) & (RVMC_PARTITIONED | RVMC_LARGE | RVMC_OWN | RVMC_KEPT))
            return 1;
    return 0;
}

/* What the library knows of a request that was freed. */
void rvmc_freed(MPI_Request request, int kind)
{
    if (kind & RVMC_OWN)
        rvmc_own.freed(request);
    else if ((kind & (RVMC_SENDER | RVMC_PERSISTENT)) == (RVMC_SENDER | RVMC_PERSISTENT))
        rvmc_large_freed(request);
}

/* A request that the program frees while it is active: what it sends still arrives. If it isn't complete it stays among the 255,
   and what is received for it doesn't come to its buffer any more. */
long rvmc_let_go(MPI_Request request, int kind)
{
    MPI_Request left = request;
    int flag;
    long code = rvmc_asked(RVMC_TEST, &left, &flag, 0);

    if (code || !flag || !(kind & RVMC_PERSISTENT))
        return code;
    code = rvmc_call(RVMC_REQUEST_FREE, request, 0, 0, 0, 0, 0).code;
    if (!code && (kind & RVMC_LARGE))
        rvmc_freed(request, kind);
    if (!code && (kind & RVMC_ELSEWHERE))
        rvmc_closed(rvmc_rests[request].communicator);
    return code;
}

void rvmc_all_completed(int count, MPI_Request *requests, MPI_Status *statuses)
{
    for (int i = 0; i < count; i++) {
        int kind = rvmc_kind(requests[i]);

        if (kind & RVMC_ELSEWHERE)
            rvmc_completed_elsewhere(rvmc_rests[requests[i]].communicator, kind, statuses ? statuses + i : 0);
        if (kind & RVMC_PERSISTENT)
            rvmc_kinds[requests[i]] = (unsigned char)(kind & ~RVMC_ACTIVE);
        else
            requests[i] = MPI_REQUEST_NULL;
    }
}

/* Receives first: a partitioned send is complete when the other side has received it, which may wait for the same there. */
int rvmc_wait_one_by_one(int count, MPI_Request *requests, MPI_Status *statuses)
{
    int error = MPI_SUCCESS;

    for (int sends = 0; sends < 2; sends++)
        for (int i = 0; i < count; i++) {
            MPI_Request was = requests[i];
            int flag, one;
            long code;

            if (((rvmc_kind(was) & RVMC_SENDER) != 0) != sends)
                continue;
            code = rvmc_asked(RVMC_WAIT, requests + i, &flag, statuses ? statuses + i : 0);
            one = rvmc_request_code("MPI_Waitall", code, was);
            if (statuses)
                statuses[i].MPI_ERROR = one;
            error = one ? MPI_ERR_IN_STATUS : error;
        }
    return error;
}

/* The null request and inactive ones are passed over where one of several is asked for (3.7.5). */
static int active(MPI_Request request)
{
    int kind = rvmc_kind(request);

    return request != MPI_REQUEST_NULL &&
           (!(kind & (RVMC_PERSISTENT | RVMC_PARTITIONED)) || (kind & RVMC_ACTIVE));
}

static void empty_status(MPI_Status *status)
{
    if (status)
        *status = (MPI_Status){MPI_ANY_SOURCE, -1, MPI_ANY_TAG, -1, 0, MPI_SUCCESS};
}

/* All at once, or none: the machine's call for an array. What the library keeps of a request is read before it. */
int MPI_Testall(int count, MPI_Request requests[], int *flag, MPI_Status statuses[])
{
    int room = count > 0 && count <= 255 ? count : 1;
    struct rvmc_rest rests[room];
    MPI_Status own[room], *where = statuses;
    MPI_Request handles[room];
    unsigned char kinds[room];
    rvmc_answer a;

    if (rvmc_idle())
        return rvmc_request_code("MPI_Testall", RVMC_NOT_BEGUN, 0);
    for (int i = 0; i < room && i < count; i++) {
        handles[i] = requests[i];
        kinds[i] = (unsigned char)rvmc_kind(requests[i]);
        if (kinds[i] & RVMC_PARTITIONED)
            return rvmc_request_code("MPI_Testall", RVMC_PARTS_AMONG, requests[i]);
        if (kinds[i] & (RVMC_OWN | RVMC_KEPT))
            handles[i] = rvmc_own.inner(requests[i]);
        if (handles[i] == RVMC_NOT_YET) {
            *flag = 0;
            return MPI_SUCCESS;
        }
        if (kinds[i] & (RVMC_LARGE | RVMC_ELSEWHERE | RVMC_OWN)) {
            rests[i] = rvmc_rests[requests[i]];
            where = statuses ? statuses : own;
        }
    }
    a = rvmc_call(RVMC_TESTALL, (long)handles, count, (long)where, 0, 0, 0);
    *flag = (int)a.value;
    for (int i = 0; a.value && i < count; i++) {
        long code = RVMC_OK;
        int done;

        if (kinds[i] & (RVMC_OWN | RVMC_KEPT))
            code = rvmc_own.asked(RVMC_TESTALL, requests + i, &done, where ? where + i : 0);
        else if (requests[i])
            code = rvmc_completed(requests + i, kinds[i], rests + i, where ? where + i : 0, RVMC_OK);
        a.code = a.code ? a.code : code;
    }
    return rvmc_request_code("MPI_Testall", a.code, 0);
}

/* One look at each active request: the index of the first that is complete, or MPI_UNDEFINED; whether any was active. */
static long look(int count, MPI_Request *requests, int *index, int *some, MPI_Status *status)
{
    *some = 0;
    *index = MPI_UNDEFINED;
    for (int i = 0; i < count; i++)
        if (active(requests[i])) {
            int flag;
            long code = rvmc_asked(RVMC_TEST, requests + i, &flag, status);

            *some = 1;
            if (flag || code) {
                *index = i;
                return code;
            }
        }
    if (!*some)
        empty_status(status);
    return RVMC_OK;
}

/* Polls: there is no call that waits for one of several. So `rvmc why` sees a hart that runs. */
int MPI_Waitany(int count, MPI_Request requests[], int *index, MPI_Status *status)
{
    int some;
    long code;

    do
        code = look(count, requests, index, &some, status);
    while (some && *index == MPI_UNDEFINED);
    return rvmc_request_code("MPI_Waitany", code, 0);
}

int MPI_Testany(int count, MPI_Request requests[], int *index, int *flag, MPI_Status *status)
{
    int some;
    long code = look(count, requests, index, &some, status);

    *flag = !some || *index != MPI_UNDEFINED;
    return rvmc_request_code("MPI_Testany", code, 0);
}

static int look_at_all(const char *call, int count, MPI_Request *requests, int *done, int *indices, MPI_Status *statuses)
{
    int some = 0, error = MPI_SUCCESS;

    *done = 0;
    for (int i = 0; i < count; i++)
        if (active(requests[i])) {
            MPI_Request was = requests[i];
            int flag, one = rvmc_request_code(call, rvmc_asked(RVMC_TEST, requests + i, &flag,
                                                               statuses ? statuses + *done : 0), was);

            some = 1;
            if (!flag && !one)
                continue;
            if (statuses)
                statuses[*done].MPI_ERROR = one;
            indices[(*done)++] = i;
            error = one ? MPI_ERR_IN_STATUS : error;
        }
    if (!some)
        *done = MPI_UNDEFINED;
    return error;
}

int MPI_Testsome(int count, MPI_Request requests[], int *done, int indices[], MPI_Status statuses[])
{
    return look_at_all("MPI_Testsome", count, requests, done, indices, statuses);
}

int MPI_Waitsome(int count, MPI_Request requests[], int *done, int indices[], MPI_Status statuses[])
{
    int error;

    do
        error = look_at_all("MPI_Waitsome", count, requests, done, indices, statuses);
    while (*done == 0);
    return error;
}
