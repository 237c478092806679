/* host.c: what a program asks of the machine that it runs on, and MPI_Abort. */
#include <errno.h>
#include <stdint.h>
#include <stdlib.h>
#include <string.h>
#include <sys/utsname.h>
#include <unistd.h>
#include "../mpi.h"
#include "errors.h"
#include "heap.h"
#include "places.h"
#include "system.h"

static const char host[] = "rvmc";

int MPI_Get_processor_name(char *name, int *length)
{
    strcpy(name, host);
    *length = (int)strlen(host);
    return MPI_SUCCESS;
}

int MPI_Get_library_version(char *version, int *length)
{
    strcpy(version, "rvmc: calls of MPI 4.1 on an emulated cluster of up to 8 ranks");
    *length = (int)strlen(version);
    return MPI_SUCCESS;
}

int MPI_Alloc_mem(MPI_Aint size, MPI_Info info, void *place)
{
    void *found = size < 0 ? 0 : malloc(size ? size : 1);

    (void)info;
    *(void **)place = found;
    if (found)
        return MPI_SUCCESS;
    if (size > 0)
        rvmc_tell_no_room("MPI_Alloc_mem", 1, (size_t)size, 0, __builtin_return_address(0));
    return rvmc_trapped(rvmc_raise("MPI_Alloc_mem", MPI_COMM_WORLD, MPI_ERR_NO_MEM, "size",
                                   "the heap has no room for %d bytes", (long)size));
}

int MPI_Free_mem(void *place)
{
    free(place);
    return MPI_SUCCESS;
}

int MPI_Get_address(const void *place, MPI_Aint *address)
{
    *address = (MPI_Aint)place;
    return MPI_SUCCESS;
}

int MPI_Address(void *place, MPI_Aint *address)
{
    return MPI_Get_address(place, address);
}

MPI_Aint MPI_Aint_add(MPI_Aint base, MPI_Aint offset)
{
    return base + offset;
}

MPI_Aint MPI_Aint_diff(MPI_Aint to, MPI_Aint from)
{
    return to - from;
}

/* The machine has no call that ends other ranks, so this one alone ends; `rvmc-mpi run` makes the code its own status. */
int MPI_Abort(MPI_Comm c, int code)
{
    const struct rvmc_place *place = rvmc_place_of(__builtin_return_address(0));

    (void)c;
    if (place)
        rvmc_say("MPI_Abort with code %d at %s:%d", (long)code, rvmc_file_of(place), (long)place->line);
    else
        rvmc_say("MPI_Abort with code %d", (long)code);
    _exit(code);
}

int gethostname(char *name, size_t room)
{
    strncpy(name, host, room);
    return 0;
}

pid_t getpid(void)
{
    return 1000 + rvmc_rank;
}

pid_t getppid(void)
{
    return 1;
}

char *getcwd(char *place, size_t room)
{
    if (!place)
        return strdup("/");
    if (room < 2) {
        errno = ERANGE;
        return 0;
    }
    return strcpy(place, "/");
}

int uname(struct utsname *names)
{
    strcpy(names->sysname, host);
    strcpy(names->nodename, host);
    strcpy(names->release, "1");
    strcpy(names->version, "1");
    strcpy(names->machine, "riscv64");
    return 0;
}
