/* check_requests.c: requests under --check. The program gets handles that are never given twice, so that one that is lost,
   or used when it is no longer one, can be told. */
#include <string.h>
#include "checked.h"
#include "layouts.h"

/* Handles are numbers that no program has by chance. */
#define FIRST_HANDLE 0x5eed000000000000L

static struct rvmc_record *records;
static long count_handles;                        /* not the last handle: that would count as a copy of it */

struct rvmc_record *rvmc_record_new(const char *call, unsigned behind, int kind)
{
    struct rvmc_record *record = rvmc_check_take(sizeof *record);

    if (record) {
        memset(record, 0, sizeof *record);
        record->call = call;
        record->behind = behind;
        record->kind = kind;
    }
    return record;
}

/* The request of the machine has been opened: the program gets a handle for it. */
void rvmc_record_open(struct rvmc_record *record, MPI_Request *request, MPI_Request raw)
{
    rvmc_check_lock();
    rvmc_use_type(record->type);
    record->raw = raw;
    record->handle = FIRST_HANDLE + ++count_handles;
    record->variable = request;
    record->next = records;
    records = record;
    *request = record->handle;
    rvmc_region_add(record, &(struct rvmc_region){(unsigned)(unsigned long)request, sizeof *request, 1, 1, 0, 0, 1, 0, 0});
    if ((record->kind & RVMC_IS_ACTIVE) && record->type)
        rvmc_type_regions(record, record->buffer, record->count, record->type, record->kind & RVMC_IS_RECEIVE);
    rvmc_check_unlock();
}

void rvmc_record_gone(struct rvmc_record *record)
{
    struct rvmc_record **at = &records;

    rvmc_check_lock();
    rvmc_regions_drop(record, 1, 1);
    while (*at && *at != record)
        at = &(*at)->next;
    if (*at) {
        *at = record->next;
        rvmc_leave_type(record->type);
    }
    while (record->parts) {
        struct rvmc_kept *part = record->parts;

        record->parts = part->next;
        rvmc_check_give_back(part);
    }
    rvmc_check_give_back(record->room);
    rvmc_check_give_back(record);
    rvmc_check_unlock();
}

struct rvmc_record *rvmc_record_of(MPI_Request request)
{
    struct rvmc_record *record = request < FIRST_HANDLE ? 0 : records;

    while (record && record->handle != request)
        record = record->next;
    return record;
}

/* --- handles that are lost --- */

static int is_among(MPI_Request handle, const MPI_Request *but, unsigned long from, unsigned long to)
{
    const MPI_Request *word = (const MPI_Request *)((from + 7) & ~7UL);

    for (; (unsigned long)(word + 1) <= to; word++)
        if (*word == handle && word != but)
            return 1;
    return 0;
}

extern char rvmc_data[], __heap_start[];

/* Whether the program has the handle in other memory: in a variable, in the stacks, or in a block of the heap. */
static int is_kept(MPI_Request handle, const MPI_Request *but, unsigned long stack)
{
    return is_among(handle, but, RVMC_NUMBER(rvmc_harts) > 1 ? (unsigned long)rvmc_stacks : stack,
                    (unsigned long)__heap_start) || rvmc_heap_has(handle, but);
}

void rvmc_variable_lost(const char *call, unsigned behind, const MPI_Request *request)
{
    struct rvmc_record *record = rvmc_record_of(*request);

    if (!record || is_kept(record->handle, request, (unsigned long)__builtin_frame_address(0)))
        return;
    RVMC_TELL(behind, record->behind, "the request of %s is overwritten by %s before its MPI_Wait",
              rvmc_check_call(record->call, record->behind), rvmc_check_call(call, behind));
}

/* The program writes to the variable. Where it has the handle elsewhere, it isn't looked at any more. */
void rvmc_request_overwritten(unsigned behind, const struct rvmc_record *record, unsigned long stack)
{
    struct rvmc_record *changed = rvmc_record_of(record->handle);
    MPI_Request *variable = changed->variable;

    if (*variable == record->handle && !is_kept(record->handle, variable, stack)) {
        RVMC_TELL(behind, record->behind, "the request of %s is overwritten at %s before its MPI_Wait",
                  rvmc_check_call(record->call, record->behind), rvmc_check_line(behind));
        return;
    }
    rvmc_check_lock();
    rvmc_regions_drop(record, 0, 1);
    rvmc_check_unlock();
}

void rvmc_requests_at_the_end(unsigned behind)
{
    for (const struct rvmc_record *r = records; r; r = r->next)
        RVMC_TELL(behind, r->behind, r->kind & RVMC_IS_PERSISTENT
                  ? "%s: the persistent request of %s was not freed" : "%s: the request of %s was never completed",
                  rvmc_check_call("MPI_Finalize", behind), rvmc_check_call(r->call, r->behind));
}

/* --- completion --- */

static MPI_Request raw_of(MPI_Request request)
{
    const struct rvmc_record *record = rvmc_record_of(request);

    return record ? record->raw : request;
}

/* Waits for a request, or tests it, and does what its completion brings. Returns what the call returns for it. */
static int ask(const char *call, unsigned behind, long number, MPI_Request *request, int *flag, MPI_Status *status)
{
    struct rvmc_record *record = rvmc_record_of(*request);
    MPI_Request raw = record ? record->raw : *request;
    MPI_Status own;
    long code;

    if (!record && *request > FIRST_HANDLE) {
        RVMC_TELL(behind, 0, "%s: the request was completed or freed before", rvmc_check_call(call, behind));
        *flag = 1;
        return MPI_ERR_REQUEST;
    }
    code = rvmc_asked(number, &raw, flag, &own);
    if (!*flag)
        return rvmc_request_code(call, code, raw);
    rvmc_show_source(&own);
    if (status)
        *status = own;
    if (!record) {
        *request = raw;
        return rvmc_request_code(call, code, raw);
    }
    return rvmc_record_completed(call, behind, record, request, status, &own, code);
}

/* A request is complete: its message is delivered, its buffer is free again, and a handle that isn't persistent is null. */
int rvmc_record_completed(const char *call, unsigned behind, struct rvmc_record *record, MPI_Request *request,
                          MPI_Status *status, MPI_Status *own, long code)
{
    int was_active = record->kind & RVMC_IS_ACTIVE, result;

    rvmc_check_lock();
    rvmc_regions_drop(record, 1, 0);
    rvmc_check_unlock();
    if (was_active && record->room && (record->kind & RVMC_IS_RECEIVE)) {
        if (record->kind & RVMC_IS_DELIVERED)
            rvmc_without_head(own);
        else
            code = rvmc_delivered(behind, record, own, code);
    }
    if (status)
        *status = *own;
    result = rvmc_request_code(call, code, record->raw);
    record->kind &= ~(RVMC_IS_ACTIVE | RVMC_IS_DELIVERED);
    if (!(record->kind & RVMC_IS_PERSISTENT)) {
        rvmc_record_gone(record);
        *request = MPI_REQUEST_NULL;
    }
    return result;
}

int rvmc_checked_Wait(MPI_Request *request, MPI_Status *status)
{
    int flag;

    rvmc_check_begin("MPI_Wait", RVMC_BEHIND);
    return rvmc_check_end(ask("MPI_Wait", RVMC_BEHIND, RVMC_WAIT, request, &flag, status));
}

int rvmc_checked_Test(MPI_Request *request, int *flag, MPI_Status *status)
{
    rvmc_check_begin("MPI_Test", RVMC_BEHIND);
    return rvmc_check_end(ask("MPI_Test", RVMC_BEHIND, RVMC_TEST, request, flag, status));
}

/* Receives first, as mpi.h has it where it waits one by one. */
int rvmc_checked_Waitall(int count, MPI_Request *requests, MPI_Status *statuses)
{
    int error = MPI_SUCCESS;
    unsigned behind = RVMC_BEHIND;

    rvmc_check_begin("MPI_Waitall", behind);
    for (int sends = 0; sends < 2; sends++)
        for (int i = 0; i < count; i++) {
            int flag, one;

            if (((rvmc_kind(raw_of(requests[i])) & RVMC_SENDER) != 0) != sends)
                continue;
            one = ask("MPI_Waitall", behind, RVMC_WAIT, requests + i, &flag, statuses ? statuses + i : 0);
            if (statuses)
                statuses[i].MPI_ERROR = one;
            error = one ? MPI_ERR_IN_STATUS : error;
        }
    return rvmc_check_end(count < 0 ? MPI_Waitall(count, requests, statuses) : error);
}

int rvmc_checked_Testall(int count, MPI_Request requests[], int *flag, MPI_Status statuses[])
{
    int room = count > 0 ? count : 1, code;
    MPI_Request raws[room];
    MPI_Status own[room];
    unsigned behind = RVMC_BEHIND;

    rvmc_check_begin("MPI_Testall", behind);
    for (int i = 0; i < count; i++)
        raws[i] = raw_of(requests[i]);
    code = MPI_Testall(count, raws, flag, own);
    for (int i = 0; *flag && i < count; i++) {
        struct rvmc_record *record = rvmc_record_of(requests[i]);

        rvmc_show_source(own + i);
        if (record)
            rvmc_record_completed("MPI_Testall", behind, record, requests + i, statuses ? statuses + i : 0, own + i, RVMC_OK);
        else
            requests[i] = raws[i];
        if (statuses && !record)
            statuses[i] = own[i];
    }
    return rvmc_check_end(code);
}

/* The null request and inactive ones are passed over where one of several is asked for (3.7.5). */
static int is_active(MPI_Request request)
{
    const struct rvmc_record *record = rvmc_record_of(request);
    int kind = rvmc_kind(request);

    if (record)
        return record->kind & RVMC_IS_ACTIVE;
    return request != MPI_REQUEST_NULL && (!(kind & (RVMC_PERSISTENT | RVMC_PARTITIONED)) || (kind & RVMC_ACTIVE));
}

static void empty_status(MPI_Status *status)
{
    if (status)
        *status = (MPI_Status){RVMC_CHECKED_ANY_SOURCE, -1, MPI_ANY_TAG, -1, 0, MPI_SUCCESS};
}

/* One look at each active request: the first that is complete, or MPI_UNDEFINED. */
static int look(const char *call, unsigned behind, int count, MPI_Request *requests, int *index, int *some, MPI_Status *status)
{
    *some = 0;
    *index = MPI_UNDEFINED;
    for (int i = 0; i < count; i++)
        if (is_active(requests[i])) {
            int flag, code = ask(call, behind, RVMC_TEST, requests + i, &flag, status);

            *some = 1;
            if (flag || code) {
                *index = i;
                return code;
            }
        }
    if (!*some)
        empty_status(status);
    return MPI_SUCCESS;
}

int rvmc_checked_Waitany(int count, MPI_Request requests[], int *index, MPI_Status *status)
{
    unsigned behind = RVMC_BEHIND;
    int some, code;

    rvmc_check_begin("MPI_Waitany", behind);
    do
        code = look("MPI_Waitany", behind, count, requests, index, &some, status);
    while (some && *index == MPI_UNDEFINED);
    return rvmc_check_end(code);
}

int rvmc_checked_Testany(int count, MPI_Request requests[], int *index, int *flag, MPI_Status *status)
{
    int some, code;

    rvmc_check_begin("MPI_Testany", RVMC_BEHIND);
    code = look("MPI_Testany", RVMC_BEHIND, count, requests, index, &some, status);
    *flag = !some || *index != MPI_UNDEFINED;
    return rvmc_check_end(code);
}

static int look_at_all(const char *call, unsigned behind, int count, MPI_Request *requests, int *done, int *indices,
                       MPI_Status *statuses)
{
    int some = 0, error = MPI_SUCCESS;

    *done = 0;
    for (int i = 0; i < count; i++)
        if (is_active(requests[i])) {
            int flag, one = ask(call, behind, RVMC_TEST, requests + i, &flag, statuses ? statuses + *done : 0);

            some = 1;
            if (!flag && !one)
                continue;
            if (statuses)
                statuses[*done].MPI_ERROR = one;
            indices[(*done)++] = i;
            error = one ? MPI_ERR_IN_STATUS : error;
        }
    if (!some)
        *done = MPI_UNDEFINED;
    return error;
}

int rvmc_checked_Testsome(int count, MPI_Request requests[], int *done, int indices[], MPI_Status statuses[])
{
    rvmc_check_begin("MPI_Testsome", RVMC_BEHIND);
    return rvmc_check_end(look_at_all("MPI_Testsome", RVMC_BEHIND, count, requests, done, indices, statuses));
}

int rvmc_checked_Waitsome(int count, MPI_Request requests[], int *done, int indices[], MPI_Status statuses[])
{
    unsigned behind = RVMC_BEHIND;
    int error;

    rvmc_check_begin("MPI_Waitsome", behind);
    do
        error = look_at_all("MPI_Waitsome", behind, count, requests, done, indices, statuses);
    while (*done == 0);
    return rvmc_check_end(error);
}

/* --- the others --- */

int rvmc_checked_Request_free(MPI_Request *request)
{
    struct rvmc_record *record = rvmc_record_of(*request);
    MPI_Request raw = raw_of(*request);
    int code;

    rvmc_check_begin("MPI_Request_free", RVMC_BEHIND);
    if (record && (record->kind & RVMC_IS_ACTIVE) && (record->kind & RVMC_IS_RECEIVE)) {
        int flag;

        RVMC_WARN(RVMC_BEHIND, record->behind, "%s: the receive of %s is active, and nothing says when its buffer may be read",
                  rvmc_check_call("MPI_Request_free", RVMC_BEHIND), rvmc_check_call(record->call, record->behind));
        code = ask("MPI_Request_free", RVMC_BEHIND, RVMC_TEST, request, &flag, 0);
        if (code || *request == MPI_REQUEST_NULL)
            return rvmc_check_end(code);
    }
    code = MPI_Request_free(&raw);
    if (!code) {
        if (record)
            rvmc_record_gone(record);
        *request = MPI_REQUEST_NULL;
    }
    return rvmc_check_end(code);
}

/* What is complete is delivered: the program may use its buffer then (3.7.6). */
int rvmc_checked_Request_get_status(MPI_Request request, int *flag, MPI_Status *status)
{
    struct rvmc_record *record = rvmc_record_of(request);
    MPI_Status own;
    int code;

    rvmc_check_begin("MPI_Request_get_status", RVMC_BEHIND);
    code = MPI_Request_get_status(raw_of(request), flag, &own);
    if (record && !code && *flag && (record->kind & RVMC_IS_ACTIVE)) {
        rvmc_check_lock();
        rvmc_regions_drop(record, 1, 0);
        rvmc_check_unlock();
        if (record->room && (record->kind & RVMC_IS_DELIVERED))
            rvmc_without_head(&own);
        else if (record->room && (record->kind & RVMC_IS_RECEIVE))
            rvmc_delivered(RVMC_BEHIND, record, &own, RVMC_OK);
        record->kind |= RVMC_IS_DELIVERED;
    }
    if (!code && *flag && status) {
        rvmc_show_source(&own);
        *status = own;
    }
    return rvmc_check_end(code);
}

int rvmc_checked_Cancel(MPI_Request *request)
{
    MPI_Request raw = raw_of(*request);

    rvmc_check_begin("MPI_Cancel", RVMC_BEHIND);
    return rvmc_check_end(MPI_Cancel(&raw));
}
