/* handlers.c: error handlers, and codes and classes of errors that a program adds (MPI 4.1, 9.3 to 9.5). */
#include <stdlib.h>
#include <string.h>
#include "../mpi.h"
#include "errors.h"
#include "contexts.h"

enum { HANDLERS = 32, ADDED = 64, FIRST_HANDLER = MPI_ERRORS_ABORT + 1 };

static struct {
    MPI_Comm_errhandler_function *function;
    int uses;
} handlers[HANDLERS];

/* Classes and codes that a program adds are numbered on behind MPI's. */
static struct {
    int error_class;
    char *text;
} added[ADDED];
static int count_added;
int rvmc_last_used_code = MPI_ERR_LASTCODE;

/* The words that MPICH has for MPI's classes. */
static const char *const words[] = {
    "No MPI error", "Invalid buffer pointer", "Invalid count", "Invalid datatype", "Invalid tag", "Invalid communicator",
    "Invalid rank", "Invalid root", "Invalid group", "Invalid MPI_Op", "Invalid topology", "Invalid dimension argument",
    "Invalid argument", "Unknown error.  Please file a bug report.", "Message truncated", "Other MPI error",
    "Internal MPI error!", "See the MPI_ERROR field in MPI_Status for the error code", "Pending request (no error)",
    "Request pending due to failure", "Access denied to file", "Invalid amode value in MPI_File_open ", "Invalid file name",
    "An error occurred in a user-defined data conversion function",
    "The requested datarep name has already been specified to MPI_REGISTER_DATAREP", "File exists",
    "File in use by some process", "Invalid MPI_File", "Invalid MPI_Info", "Invalid key for MPI_Info ",
    "Invalid MPI_Info value ", "MPI_Info key is not defined ", "Other I/O error ", "Invalid service name (see MPI_Publish_name)",
    "Unable to allocate memory for MPI_Alloc_mem", "Inconsistent arguments to collective routine ",
    "Not enough space for file ", "File does not exist", "Invalid port", "Quota exceeded for files",
    "Read-only file or filesystem name", "Attempt to lookup an unknown service name ", "Error in spawn call",
    "Unsupported datarep passed to MPI_File_set_view ", "Unsupported file operation ", "Invalid MPI_Win",
    "Invalid base address", "Invalid locktype argument", "Invalid keyval", "Conflicting accesses to window ",
    "Wrong synchronization of RMA calls ", "Invalid size argument in RMA call", "Invalid displacement argument in RMA call ",
    "Invalid assert argument",
};
enum { WORDS = sizeof words / sizeof *words };

static int is_added(int code)
{
    return code > MPI_ERR_LASTCODE && code - MPI_ERR_LASTCODE <= count_added;
}

static int wrong_code(const char *call, int code)
{
    return rvmc_trapped(rvmc_raise(call, MPI_COMM_WORLD, MPI_ERR_ARG, "errorcode", "%d is no error code", (long)code));
}

int MPI_Error_class(int code, int *error_class)
{
    *error_class = is_added(code) ? added[code - MPI_ERR_LASTCODE - 1].error_class : code;
    return MPI_SUCCESS;
}

int MPI_Error_string(int code, char *text, int *length)
{
    const char *found = "Unknown error class";

    if (is_added(code))
        found = added[code - MPI_ERR_LASTCODE - 1].text ? added[code - MPI_ERR_LASTCODE - 1].text : "";
    else if (code >= 0 && code < WORDS)
        found = words[code];
    strcpy(text, found);
    *length = (int)strlen(text);
    return MPI_SUCCESS;
}

static int add(const char *call, int error_class, int *number)
{
    if (count_added == ADDED)
        return rvmc_no_room(call, ADDED, "error classes and codes");
    *number = rvmc_last_used_code = MPI_ERR_LASTCODE + ++count_added;
    added[count_added - 1].error_class = error_class < 0 ? *number : error_class;
    return MPI_SUCCESS;
}

int MPI_Add_error_class(int *error_class)
{
    return add("MPI_Add_error_class", -1, error_class);
}

int MPI_Add_error_code(int error_class, int *code)
{
    return add("MPI_Add_error_code", error_class, code);
}

int MPI_Add_error_string(int code, const char *text)
{
    if (!is_added(code))
        return wrong_code("MPI_Add_error_string", code);
    free(added[code - MPI_ERR_LASTCODE - 1].text);
    added[code - MPI_ERR_LASTCODE - 1].text = strndup(text, MPI_MAX_ERROR_STRING - 1);
    return MPI_SUCCESS;
}

static void own_handler(MPI_Comm c, MPI_Errhandler handler, int error)
{
    handlers[handler - FIRST_HANDLER].function(&c, &error);
}

static int exists(MPI_Errhandler handler)
{
    return handler >= 0 && handler < FIRST_HANDLER + HANDLERS &&
           (handler < FIRST_HANDLER || handlers[handler - FIRST_HANDLER].uses);
}

static int wrong_handler(const char *call)
{
    return rvmc_trapped(rvmc_raise(call, MPI_COMM_WORLD, MPI_ERR_ARG, "errhandler", "there is no such error handler"));
}

/* A handler stays as long as a communicator has it (9.3). */
static void used(MPI_Errhandler handler, int change)
{
    if (handler >= FIRST_HANDLER)
        handlers[handler - FIRST_HANDLER].uses += change;
}

int MPI_Comm_create_errhandler(MPI_Comm_errhandler_function *function, MPI_Errhandler *handler)
{
    for (int i = 0; i < HANDLERS; i++)
        if (!handlers[i].uses) {
            handlers[i].function = function;
            handlers[i].uses = 1;
            rvmc_own_handler = own_handler;
            *handler = FIRST_HANDLER + i;
            return MPI_SUCCESS;
        }
    return rvmc_no_room("MPI_Comm_create_errhandler", HANDLERS, "error handlers");
}

int MPI_Errhandler_free(MPI_Errhandler *handler)
{
    if (!exists(*handler))
        return wrong_handler("MPI_Errhandler_free");
    used(*handler, -1);
    *handler = MPI_ERRHANDLER_NULL;
    return MPI_SUCCESS;
}

static int checked(const char *call, MPI_Comm c)
{
    int size;

    return rvmc_comm_code(call, rvmc_asked_of(RVMC_SIZE, c, &size), c);
}

int MPI_Comm_set_errhandler(MPI_Comm c, MPI_Errhandler handler)
{
    int error = checked("MPI_Comm_set_errhandler", c);

    if (error)
        return error;
    if (!exists(handler))
        return wrong_handler("MPI_Comm_set_errhandler");
    used(handler, 1);
    used(rvmc_handlers[c], -1);
    rvmc_handlers[c] = handler;
    rvmc_hooks.used_handler = used;
    return MPI_SUCCESS;
}

int MPI_Comm_get_errhandler(MPI_Comm c, MPI_Errhandler *handler)
{
    int error = checked("MPI_Comm_get_errhandler", c);

    if (error)
        return error;
    *handler = rvmc_handlers[c];
    used(*handler, 1);
    return MPI_SUCCESS;
}

int MPI_Comm_call_errhandler(MPI_Comm c, int code)
{
    int error = checked("MPI_Comm_call_errhandler", c);
    MPI_Errhandler handler;

    if (error)
        return error;
    handler = rvmc_handlers[c];
    if (handler >= FIRST_HANDLER)
        own_handler(c, handler, code);
    else if (handler != MPI_ERRORS_RETURN)
        return rvmc_trapped(rvmc_raise("MPI_Comm_call_errhandler", c, code, "errorcode", "error code %d", (long)code));
    return MPI_SUCCESS;
}

int MPI_Errhandler_create(MPI_Comm_errhandler_function *function, MPI_Errhandler *handler)
{
    return MPI_Comm_create_errhandler(function, handler);
}

int MPI_Errhandler_set(MPI_Comm c, MPI_Errhandler handler)
{
    return MPI_Comm_set_errhandler(c, handler);
}

int MPI_Errhandler_get(MPI_Comm c, MPI_Errhandler *handler)
{
    return MPI_Comm_get_errhandler(c, handler);
}

int rvmc_full_heap(const char *call)
{
    return rvmc_trapped(rvmc_raise(call, MPI_COMM_WORLD, MPI_ERR_NO_MEM, 0, "the heap is full: rvmc-cc --memory gives more"));
}

int rvmc_no_room(const char *call, long most, const char *things)
{
    return rvmc_trapped(rvmc_raise(call, MPI_COMM_WORLD, MPI_ERR_NO_MEM, 0, "there are %d %s, and no more are served", most,
                                   things));
}
