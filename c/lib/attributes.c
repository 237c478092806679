/* attributes.c: attributes and names of communicators and datatypes (MPI 4.1, 7.7, 7.8). */
#include <stdlib.h>
#include <string.h>
#include "../mpi.h"
#include "errors.h"
#include "contexts.h"
#include "layouts.h"

enum { FIRST_KEY = 16 };
enum object { COMMUNICATOR, DATATYPE };

/* A key that is freed stays as long as an attribute has it (7.7.2), so it isn't given again. */
static struct key {
    MPI_Comm_copy_attr_function *copy;            /* for the calls that make a communicator of another one */
    MPI_Comm_delete_attr_function *gone;
    void *extra;
    enum object object;
    int freed;
} *keys;
static int count_keys;

static struct attribute {
    struct attribute *next;
    enum object object;
    int handle, key;
    void *value;
} *attributes;

static struct name {
    struct name *next;
    enum object object;
    int handle;
    char text[MPI_MAX_OBJECT_NAME];
} *object_names;

extern int rvmc_last_used_code __attribute__((weak));

static int wrong_key(const char *call, int key)
{
    return rvmc_trapped(rvmc_raise(call, MPI_COMM_WORLD, MPI_ERR_KEYVAL, "keyval", key == MPI_KEYVAL_INVALID
                                   ? "the key is MPI_KEYVAL_INVALID" : "%d is no key for this kind of object", (long)key));
}

static int is_mark(MPI_Datatype type)
{
    return type == MPI_LB || type == MPI_UB;
}

static int wrong_object(const char *call, enum object object, int handle)
{
    int size;

    if (object == DATATYPE) {
        int exists = RVMC_SIZE_OF(handle) || is_mark(handle) || (rvmc_is_derived(handle) && rvmc_derived.layout(handle));

        return rvmc_code(call, exists ? RVMC_OK : RVMC_BAD_COUNT, 0, 0, 0, handle, 0, 0, MPI_COMM_WORLD);
    }
    return rvmc_comm_code(call, rvmc_asked_of(RVMC_SIZE, handle, &size), handle);
}

static struct key *key_of(enum object object, int key)
{
    struct key *found = key < FIRST_KEY || key >= FIRST_KEY + count_keys ? 0 : keys + key - FIRST_KEY;

    return found && found->object == object ? found : 0;
}

int rvmc_dup_attribute(int object, int key, void *extra, void *value, void *copy, int *flag)
{
    (void)object;
    (void)key;
    (void)extra;
    *(void **)copy = value;
    *flag = 1;
    return MPI_SUCCESS;
}

static int create_key(enum object object, MPI_Comm_copy_attr_function *copy, MPI_Comm_delete_attr_function *gone, int *key,
                      void *extra)
{
    struct key *more = realloc(keys, (count_keys + 1) * sizeof *keys);

    if (!more)
        return rvmc_full_heap("MPI_Comm_create_keyval");
    keys = more;
    keys[count_keys] = (struct key){copy, gone, extra, object, 0};
    *key = FIRST_KEY + count_keys++;
    return MPI_SUCCESS;
}

static int is_used(int key)
{
    struct attribute *at = attributes;

    while (at && at->key != key)
        at = at->next;
    return at != 0;
}

/* A program may free it again by another copy of its number, as long as it stays. */
static int free_key(const char *call, enum object object, int *key)
{
    struct key *found = key_of(object, *key);

    if (!found || (found->freed && !is_used(*key)))
        return wrong_key(call, *key);
    found->freed = 1;
    *key = MPI_KEYVAL_INVALID;
    return MPI_SUCCESS;
}

static struct attribute **place_of(enum object object, int handle, int key)
{
    struct attribute **at = &attributes;

    while (*at && ((*at)->object != object || (*at)->handle != handle || (*at)->key != key))
        at = &(*at)->next;
    return at;
}

/* What the function of the key refuses stays. */
static int delete_at(struct attribute **at)
{
    struct attribute *old = *at;
    struct key *key = keys + old->key - FIRST_KEY;
    int error = key->gone ? key->gone(old->handle, old->key, old->value, key->extra) : MPI_SUCCESS;

    for (at = &attributes; !error && *at; at = &(*at)->next)
        if (*at == old) {
            *at = old->next;
            free(old);
            break;
        }
    return error;
}

/* Those of an object, the newest first. A function may change others. */
static int delete_of(enum object object, int handle)
{
    struct attribute **at = &attributes;
    int error = MPI_SUCCESS;

    while (!error && *at)
        if ((*at)->object != object || (*at)->handle != handle) {
            at = &(*at)->next;
        } else {
            error = delete_at(at);
            at = &attributes;
        }
    return error;
}

/* At the end, those of MPI_COMM_SELF first (11.2.4). */
static void delete_all(void)
{
    delete_of(COMMUNICATOR, MPI_COMM_SELF);
    delete_of(COMMUNICATOR, MPI_COMM_WORLD);
}

static int delete_of_communicator(MPI_Comm c)
{
    return delete_of(COMMUNICATOR, c);
}

static int add(const char *call, enum object object, int handle, int key, void *value);

/* For MPI_Comm_dup and MPI_Type_dup: what the function of a key says of the new object's. */
static int copy_of(const char *call, enum object object, int from, int to)
{
    for (struct attribute *at = attributes; at; at = at->next) {
        struct key *key = keys + at->key - FIRST_KEY;
        void *value;
        int flag = 0, error;

        if (at->object != object || at->handle != from || !key->copy)
            continue;
        error = key->copy(from, at->key, key->extra, at->value, &value, &flag);
        error = error || !flag ? error : add(call, object, to, at->key, value);
        if (error)
            return error;
    }
    return MPI_SUCCESS;
}

static int copy_of_communicator(MPI_Comm from, MPI_Comm to)
{
    return copy_of("MPI_Comm_dup", COMMUNICATOR, from, to);
}

static void free_name_of(enum object object, int handle);

static int of_types(MPI_Datatype from, MPI_Datatype to)
{
    int error;

    if (to != MPI_DATATYPE_NULL)
        return copy_of("MPI_Type_dup", DATATYPE, from, to);
    error = delete_of(DATATYPE, from);
    if (!error)
        free_name_of(DATATYPE, from);
    return error;
}

static int set(const char *call, enum object object, int handle, int key, void *value)
{
    struct attribute **at;
    int error = wrong_object(call, object, handle);

    if (error)
        return error;
    if (!key_of(object, key) || key_of(object, key)->freed)
        return wrong_key(call, key);
    at = place_of(object, handle, key);
    if (*at && (error = delete_at(at)))
        return error;
    return add(call, object, handle, key, value);
}

static int add(const char *call, enum object object, int handle, int key, void *value)
{
    struct attribute *new = malloc(sizeof *new);

    if (!new)
        return rvmc_full_heap(call);
    *new = (struct attribute){attributes, object, handle, key, value};
    attributes = new;
    rvmc_end_of_attributes = delete_all;
    rvmc_attributes_of_types = of_types;
    rvmc_hooks.copied_attributes = copy_of_communicator;
    rvmc_hooks.freed_attributes = delete_of_communicator;
    return MPI_SUCCESS;
}

/* What MPI itself says of MPI_COMM_WORLD (9.1.2), by pointers to numbers. */
static int predefined(int key, void *value, int *flag)
{
    static int numbers[] = {
        [MPI_TAG_UB] = RVMC_MOST_TAG, [MPI_HOST] = MPI_PROC_NULL, [MPI_IO] = MPI_ANY_SOURCE, [MPI_WTIME_IS_GLOBAL] = 0,
        [MPI_UNIVERSE_SIZE] = 0, [MPI_LASTUSEDCODE] = MPI_ERR_LASTCODE, [MPI_APPNUM] = 0,
    };

    if (&rvmc_last_used_code)
        numbers[MPI_LASTUSEDCODE] = rvmc_last_used_code;
    *flag = key != MPI_UNIVERSE_SIZE;
    if (*flag)
        *(int **)value = numbers + key;
    return MPI_SUCCESS;
}

static int get(const char *call, enum object object, int handle, int key, void *value, int *flag)
{
    struct attribute *found;
    int error = wrong_object(call, object, handle);

    if (error)
        return error;
    if (object == COMMUNICATOR && key >= MPI_TAG_UB && key <= MPI_APPNUM)
        return predefined(key, value, flag);
    if (!key_of(object, key))
        return wrong_key(call, key);
    found = *place_of(object, handle, key);
    *flag = found != 0;
    if (found)
        *(void **)value = found->value;
    return MPI_SUCCESS;
}

static int delete(const char *call, enum object object, int handle, int key)
{
    struct attribute **at;
    int error = wrong_object(call, object, handle);

    if (error)
        return error;
    if (!key_of(object, key))
        return wrong_key(call, key);
    at = place_of(object, handle, key);
    return *at ? delete_at(at) : MPI_SUCCESS;
}

int MPI_Comm_create_keyval(MPI_Comm_copy_attr_function *copy, MPI_Comm_delete_attr_function *gone, int *key, void *extra)
{
    return create_key(COMMUNICATOR, copy, gone, key, extra);
}

int MPI_Comm_free_keyval(int *key)
{
    return free_key("MPI_Comm_free_keyval", COMMUNICATOR, key);
}

int MPI_Comm_set_attr(MPI_Comm c, int key, void *value)
{
    return set("MPI_Comm_set_attr", COMMUNICATOR, c, key, value);
}

int MPI_Comm_get_attr(MPI_Comm c, int key, void *value, int *flag)
{
    return get("MPI_Comm_get_attr", COMMUNICATOR, c, key, value, flag);
}

int MPI_Comm_delete_attr(MPI_Comm c, int key)
{
    return delete("MPI_Comm_delete_attr", COMMUNICATOR, c, key);
}

int MPI_Keyval_create(MPI_Copy_function *copy, MPI_Delete_function *gone, int *key, void *extra)
{
    return create_key(COMMUNICATOR, copy, gone, key, extra);
}

int MPI_Keyval_free(int *key)
{
    return free_key("MPI_Keyval_free", COMMUNICATOR, key);
}

int MPI_Attr_put(MPI_Comm c, int key, void *value)
{
    return set("MPI_Attr_put", COMMUNICATOR, c, key, value);
}

int MPI_Attr_get(MPI_Comm c, int key, void *value, int *flag)
{
    return get("MPI_Attr_get", COMMUNICATOR, c, key, value, flag);
}

int MPI_Attr_delete(MPI_Comm c, int key)
{
    return delete("MPI_Attr_delete", COMMUNICATOR, c, key);
}

int MPI_Type_create_keyval(MPI_Type_copy_attr_function *copy, MPI_Type_delete_attr_function *gone, int *key, void *extra)
{
    return create_key(DATATYPE, copy, gone, key, extra);
}

int MPI_Type_free_keyval(int *key)
{
    return free_key("MPI_Type_free_keyval", DATATYPE, key);
}

int MPI_Type_set_attr(MPI_Datatype type, int key, void *value)
{
    return set("MPI_Type_set_attr", DATATYPE, type, key, value);
}

int MPI_Type_get_attr(MPI_Datatype type, int key, void *value, int *flag)
{
    return get("MPI_Type_get_attr", DATATYPE, type, key, value, flag);
}

int MPI_Type_delete_attr(MPI_Datatype type, int key)
{
    return delete("MPI_Type_delete_attr", DATATYPE, type, key);
}

/* --- names (7.8) --- */

static struct name *name_of(enum object object, int handle)
{
    struct name *name = object_names;

    while (name && (name->object != object || name->handle != handle))
        name = name->next;
    return name;
}

static void free_name_of(enum object object, int handle)
{
    struct name *name = name_of(object, handle);

    if (name)
        name->text[0] = 0;
}

static const char *name_of_communicator(MPI_Comm c)
{
    const struct name *name = name_of(COMMUNICATOR, c);

    return name ? name->text : 0;
}

static void free_name(MPI_Comm c)
{
    free_name_of(COMMUNICATOR, c);
}

static int set_name(const char *call, enum object object, int handle, const char *text)
{
    struct name *name = name_of(object, handle);
    int error = wrong_object(call, object, handle);

    if (error)
        return error;
    if (!name) {
        name = malloc(sizeof *name);
        if (!name)
            return rvmc_full_heap(call);
        name->next = object_names;
        name->object = object;
        name->handle = handle;
        object_names = name;
        rvmc_attributes_of_types = of_types;
        rvmc_hooks.freed_name = free_name;
        rvmc_hooks.name = name_of_communicator;
    }
    strncpy(name->text, text, sizeof name->text - 1);
    name->text[sizeof name->text - 1] = 0;
    return MPI_SUCCESS;
}

int MPI_Comm_set_name(MPI_Comm c, const char *text)
{
    int error = set_name("MPI_Comm_set_name", COMMUNICATOR, c, text);

    if (!error)
        rvmc_makers[c].name = name_of(COMMUNICATOR, c)->text;
    return error;
}

int MPI_Comm_get_name(MPI_Comm c, char *text, int *length)
{
    struct name *name = name_of(COMMUNICATOR, c);
    int error = wrong_object("MPI_Comm_get_name", COMMUNICATOR, c);

    if (error)
        return error;
    strcpy(text, name ? name->text : c == MPI_COMM_WORLD ? "MPI_COMM_WORLD" : c == MPI_COMM_SELF ? "MPI_COMM_SELF" : "");
    *length = (int)strlen(text);
    return MPI_SUCCESS;
}

int MPI_Type_set_name(MPI_Datatype type, const char *text)
{
    return set_name("MPI_Type_set_name", DATATYPE, type, text);
}

int MPI_Type_get_name(MPI_Datatype type, char *text, int *length)
{
    struct name *name = name_of(DATATYPE, type);
    int error = type ? wrong_object("MPI_Type_get_name", DATATYPE, type) : MPI_SUCCESS;

    if (error)
        return error;
    if (is_mark(type))
        strcpy(text, type == MPI_LB ? "MPI_LB" : "MPI_UB");
    else
        strcpy(text, name ? name->text : rvmc_is_derived(type) ? "" : rvmc_type_name(type));
    *length = (int)strlen(text);
    return MPI_SUCCESS;
}
