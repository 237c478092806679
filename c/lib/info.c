/* info.c: lists of keys and values (MPI 4.1, chapter 10). No call of the library asks for a key. */
#include <stdlib.h>
#include <string.h>
#include "../mpi.h"
#include "errors.h"
#include "contexts.h"

enum { INFOS = 256, FIRST_INFO = MPI_INFO_ENV + 1 };

struct pair {
    struct pair *next;
    char *key, *value;
};
static struct {
    struct pair *pairs;
    int open;
} infos[INFOS];
static struct pair *environment;
static MPI_Info of_communicators[RVMC_COMMUNICATORS];

static struct pair **pairs_of(MPI_Info info)
{
    if (info == MPI_INFO_ENV)
        return &environment;
    if (info < FIRST_INFO || info >= FIRST_INFO + INFOS || !infos[info - FIRST_INFO].open)
        return 0;
    return &infos[info - FIRST_INFO].pairs;
}

static int wrong(const char *call, int error, const char *argument, const char *what)
{
    return rvmc_trapped(rvmc_raise(call, MPI_COMM_WORLD, error, argument, what));
}

static int wrong_info(const char *call, MPI_Info info)
{
    if (pairs_of(info))
        return MPI_SUCCESS;
    return wrong(call, MPI_ERR_INFO, "info", info == MPI_INFO_NULL ? "the info is MPI_INFO_NULL" : "there is no such info");
}

static int wrong_key(const char *call, const char *key)
{
    if (!key || !*key)
        return wrong(call, MPI_ERR_INFO_KEY, "key", "the key is empty, or a null pointer");
    return strlen(key) <= MPI_MAX_INFO_KEY ? MPI_SUCCESS : wrong(call, MPI_ERR_INFO_KEY, "key", "the key is too long");
}

static struct pair **pair_of(MPI_Info info, const char *key)
{
    struct pair **at = pairs_of(info);

    while (*at && strcmp((*at)->key, key))
        at = &(*at)->next;
    return at;
}

int MPI_Info_create(MPI_Info *info)
{
    for (int i = 0; i < INFOS; i++)
        if (!infos[i].open) {
            infos[i].open = 1;
            infos[i].pairs = 0;
            *info = FIRST_INFO + i;
            return MPI_SUCCESS;
        }
    return rvmc_no_room("MPI_Info_create", INFOS, "info objects");
}

static int put(MPI_Info info, const char *key, const char *value)
{
    struct pair **at = pair_of(info, key);
    char *copy = strdup(value);

    if (!*at) {
        struct pair *new = calloc(1, sizeof *new);

        if (!new || !(new->key = strdup(key)))
            return rvmc_full_heap("MPI_Info_set");
        *at = new;
    }
    free((*at)->value);
    (*at)->value = copy;
    return copy ? MPI_SUCCESS : rvmc_full_heap("MPI_Info_set");
}

int MPI_Info_set(MPI_Info info, const char *key, const char *value)
{
    int error = wrong_info("MPI_Info_set", info);

    if (!error)
        error = wrong_key("MPI_Info_set", key);
    if (error)
        return error;
    if (!value || strlen(value) > MPI_MAX_INFO_VAL)
        return wrong("MPI_Info_set", MPI_ERR_INFO_VALUE, "value", "the value is a null pointer, or too long");
    return put(info, key, value);
}

/* The program's name is all that is known (MPI 4.1, 11.2.1). */
int MPI_Info_create_env(int argc, char **argv, MPI_Info *info)
{
    int error = MPI_Info_create(info);

    if (!error && argc > 0)
        error = put(*info, "command", argv[0]);
    return error;
}

int MPI_Info_dup(MPI_Info info, MPI_Info *copy)
{
    int error = wrong_info("MPI_Info_dup", info);

    if (!error)
        error = MPI_Info_create(copy);
    for (struct pair *at = error ? 0 : *pairs_of(info); at && !error; at = at->next)
        error = put(*copy, at->key, at->value);
    return error;
}

static void drop(struct pair **at)
{
    struct pair *old = *at;

    *at = old->next;
    free(old->key);
    free(old->value);
    free(old);
}

int MPI_Info_free(MPI_Info *info)
{
    int error = *info == MPI_INFO_ENV ? wrong("MPI_Info_free", MPI_ERR_INFO, "info", "MPI_INFO_ENV can't be freed")
                                      : wrong_info("MPI_Info_free", *info);

    if (error)
        return error;
    while (*pairs_of(*info))
        drop(pairs_of(*info));
    infos[*info - FIRST_INFO].open = 0;
    *info = MPI_INFO_NULL;
    return MPI_SUCCESS;
}

int MPI_Info_delete(MPI_Info info, const char *key)
{
    int error = wrong_info("MPI_Info_delete", info);
    struct pair **at;

    if (!error)
        error = wrong_key("MPI_Info_delete", key);
    if (error)
        return error;
    at = pair_of(info, key);
    if (!*at)
        return wrong("MPI_Info_delete", MPI_ERR_INFO_NOKEY, "key", "the info has no such key");
    drop(at);
    return MPI_SUCCESS;
}

static int find(const char *call, MPI_Info info, const char *key, struct pair **found, int *flag)
{
    int error = wrong_info(call, info);

    if (!error)
        error = wrong_key(call, key);
    if (error)
        return error;
    *found = *pair_of(info, key);
    *flag = *found != 0;
    return MPI_SUCCESS;
}

/* What has no room is cut off. Behind the text and its end nothing is written: programs name the whole size of their array
   as the length of the value, for which the standard wants one less. */
static void copy_text(char *copy, const char *text, size_t most)
{
    size_t length = strlen(text);

    if (length > most)
        length = most;
    memcpy(copy, text, length);
    copy[length] = 0;
}

int MPI_Info_get(MPI_Info info, const char *key, int length, char *value, int *flag)
{
    struct pair *found = 0;
    int error = find("MPI_Info_get", info, key, &found, flag);

    if (!error && found)
        copy_text(value, found->value, length);
    return error;
}

int MPI_Info_get_string(MPI_Info info, const char *key, int *room, char *value, int *flag)
{
    struct pair *found = 0;
    int error = find("MPI_Info_get_string", info, key, &found, flag);

    if (!error && found) {
        if (*room > 0)
            copy_text(value, found->value, *room - 1);
        *room = (int)strlen(found->value) + 1;
    }
    return error;
}

int MPI_Info_get_valuelen(MPI_Info info, const char *key, int *length, int *flag)
{
    struct pair *found = 0;
    int error = find("MPI_Info_get_valuelen", info, key, &found, flag);

    if (!error && found)
        *length = (int)strlen(found->value);
    return error;
}

int MPI_Info_get_nkeys(MPI_Info info, int *count)
{
    int error = wrong_info("MPI_Info_get_nkeys", info);

    *count = 0;
    for (struct pair *at = error ? 0 : *pairs_of(info); at; at = at->next)
        ++*count;
    return error;
}

int MPI_Info_get_nthkey(MPI_Info info, int n, char *key)
{
    int error = wrong_info("MPI_Info_get_nthkey", info);
    struct pair *at = error ? 0 : *pairs_of(info);

    for (int i = 0; at && i < n; i++)
        at = at->next;
    if (!error && (n < 0 || !at))
        return wrong("MPI_Info_get_nthkey", MPI_ERR_ARG, "n", "the info has fewer keys");
    if (at)
        strcpy(key, at->key);
    return error;
}

static int wrong_comm(const char *call, MPI_Comm c)
{
    int size;

    return rvmc_comm_code(call, rvmc_asked_of(RVMC_SIZE, c, &size), c);
}

static void free_info(MPI_Comm c)
{
    if (of_communicators[c] != MPI_INFO_NULL)
        MPI_Info_free(of_communicators + c);
}

/* A hint that MPI doesn't know is ignored (7.4.4): all that it knows begin so. */
static void forget_others(MPI_Info info)
{
    struct pair **at = info == MPI_INFO_NULL ? 0 : pairs_of(info);

    while (at && *at) {
        struct pair *pair = *at;

        if (!strncmp(pair->key, "mpi_assert_", sizeof "mpi_assert_" - 1)) {
            at = &pair->next;
            continue;
        }
        *at = pair->next;
        free(pair->key);
        free(pair->value);
        free(pair);
    }
}

/* Hints, of which none is followed. */
int MPI_Comm_set_info(MPI_Comm c, MPI_Info info)
{
    int error = wrong_comm("MPI_Comm_set_info", c);
    MPI_Info copy = MPI_INFO_NULL;

    if (!error && info != MPI_INFO_NULL)
        error = MPI_Info_dup(info, &copy);
    if (error)
        return error;
    forget_others(copy);
    free_info(c);
    of_communicators[c] = copy;
    rvmc_hooks.freed_info = free_info;
    return MPI_SUCCESS;
}

int MPI_Comm_get_info(MPI_Comm c, MPI_Info *info)
{
    int error = wrong_comm("MPI_Comm_get_info", c);

    if (error)
        return error;
    return of_communicators[c] == MPI_INFO_NULL ? MPI_Info_create(info) : MPI_Info_dup(of_communicators[c], info);
}
