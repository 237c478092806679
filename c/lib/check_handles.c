/* check_handles.c: communicators, datatypes, operations and groups that a program makes, and doesn't free; and communicators that
   it uses when they are freed. */
#include "checked.h"

struct handle {
    struct handle *next;
    int handle, kind;
    const char *call;
    unsigned behind, freed;                       /* where it was made and, of a communicator, freed */
};
static struct handle *handles;

static const char *const kinds[] = {"communicator", "datatype", "operation", "group"};

static struct handle *handle_of(int kind, int handle)
{
    struct handle *found = handles;

    while (found && (found->kind != kind || found->handle != handle))
        found = found->next;
    return found;
}

/* Equal groups have one handle, however often one is made: that which was made last and isn't freed. */
static struct handle *open_group(int handle)
{
    struct handle *found = handles;

    while (found && (found->kind != RVMC_IS_GROUP || found->handle != handle || found->freed))
        found = found->next;
    return found;
}

/* The program has made a handle, where there is no error. One that was freed may be given again. */
void rvmc_check_made(const char *call, int kind, int code, const int *handle)
{
    struct handle *made;

    if (code || (kind == RVMC_IS_COMMUNICATOR && *handle == MPI_COMM_NULL) || (kind == RVMC_IS_GROUP && *handle == MPI_GROUP_EMPTY))
        return;
    rvmc_check_lock();
    made = kind == RVMC_IS_GROUP ? 0 : handle_of(kind, *handle);
    if (!made) {
        made = rvmc_check_take(sizeof *made);
        if (made)
            made->next = handles;
        if (made)
            handles = made;
    }
    if (made) {
        made->handle = *handle;
        made->kind = kind;
        made->call = call;
        made->behind = RVMC_BEHIND;
        made->freed = 0;
    }
    rvmc_check_unlock();
}

/* The program frees a handle. */
void rvmc_check_freed(int kind, int handle)
{
    struct handle *made = kind == RVMC_IS_GROUP ? open_group(handle) : handle_of(kind, handle);

    if (made)
        made->freed = RVMC_BEHIND;
}

void rvmc_check_communicator(const char *call, unsigned behind, MPI_Comm c)
{
    const struct handle *made = c == MPI_COMM_WORLD ? 0 : handle_of(RVMC_IS_COMMUNICATOR, c);

    if (made && made->freed)
        RVMC_TELL(behind, made->freed, "%s: the communicator of %s was freed at %s", rvmc_check_call(call, behind),
                  rvmc_check_call(made->call, made->behind), rvmc_check_line(made->freed));
}

void rvmc_handles_at_the_end(unsigned behind)
{
    for (const struct handle *h = handles; h; h = h->next)
        if (!h->freed)
            RVMC_TELL(behind, h->behind, "%s: the %s of %s was not freed", rvmc_check_call("MPI_Finalize", behind),
                      kinds[h->kind], rvmc_check_call(h->call, h->behind));
}
