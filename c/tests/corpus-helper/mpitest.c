/* mpitest.c: the helper of mpitest.h. */
#include "mpitest.h"
#include <stdarg.h>

/* how often a communicator was asked for since the last one that was none */
static int communicators;

/* --- begin, end, and what is told --- */

void MTest_Init_thread(int *argc, char ***argv, int required, int *provided)
{
    int begun = 0;

    MPI_Initialized(&begun);
    if (!begun)
        MPI_Init_thread(argc, argv, required, provided);
}

void MTest_Init(int *argc, char ***argv)
{
    int begun = 0;

    MPI_Initialized(&begun);
    if (!begun)
        MPI_Init(argc, argv);
}

/* Rank 0 tells how many errors there were, as MPICH's helper does. */
void MTest_Finalize(int errors)
{
    int rank, all = 0;

    MPI_Comm_rank(MPI_COMM_WORLD, &rank);
    MPI_Allreduce(&errors, &all, 1, MPI_INT, MPI_SUM, MPI_COMM_WORLD);
    if (rank == 0) {
        if (all)
            printf(" Found %d errors\n", all);
        else
            printf(" No Errors\n");
        fflush(stdout);
    }
    MPI_Finalize();
}

int MTestReturnValue(int errors)
{
    return errors ? 1 : 0;
}

void MTestPrintError(int code)
{
    int class = 0;

    MPI_Error_class(code, &class);
    printf("an error of class %d\n", class);
    fflush(stdout);
}

void MTestPrintErrorMsg(const char text[], int code)
{
    printf("%s: ", text);
    MTestPrintError(code);
}

/* MPICH's helper tells this only where an environment variable asks for it. */
void MTestPrintfMsg(int level, const char format[], ...)
{
    (void)level;
    (void)format;
}

void MTestError(const char text[])
{
    printf("%s\n", text);
    MPI_Abort(MPI_COMM_WORLD, 1);
}

void MTestSleep(int seconds)
{
    sleep((unsigned)seconds);
}

/* --- communicators --- */

int MTestGetIntracommGeneral(MPI_Comm *comm, int least, int smaller)
{
    int size;

    (void)smaller;
    MPI_Comm_size(MPI_COMM_WORLD, &size);
    if (communicators++ == 0 && size >= least) {
        *comm = MPI_COMM_WORLD;
        return 1;
    }
    communicators = 0;
    *comm = MPI_COMM_NULL;
    return 0;
}

int MTestGetIntracomm(MPI_Comm *comm, int least)
{
    return MTestGetIntracommGeneral(comm, least, 0);
}

int MTestGetComm(MPI_Comm *comm, int least)
{
    return MTestGetIntracommGeneral(comm, least, 1);
}

const char *MTestGetIntracommName(void)
{
    return communicators ? "MPI_COMM_WORLD" : "MPI_COMM_NULL";
}

int MTestTestComm(MPI_Comm comm)
{
    int rank = -1, size = -1;

    if (comm == MPI_COMM_NULL)
        return 0;
    MPI_Comm_rank(comm, &rank);
    MPI_Comm_size(comm, &size);
    return rank < 0 || rank >= size;
}

int MTestTestIntracomm(MPI_Comm comm)
{
    return MTestTestComm(comm);
}

void MTestFreeComm(MPI_Comm *comm)
{
    *comm = MPI_COMM_NULL;
}

/* --- statuses --- */

int MTestIsBasicDtype(MPI_Datatype type)
{
    const MPI_Datatype basic[] = {MPI_CHAR, MPI_SHORT, MPI_INT, MPI_LONG, MPI_UNSIGNED_CHAR, MPI_UNSIGNED_SHORT,
                                  MPI_UNSIGNED, MPI_UNSIGNED_LONG, MPI_FLOAT, MPI_DOUBLE, MPI_BYTE, MPI_LONG_LONG};

    for (unsigned i = 0; i < sizeof(basic) / sizeof(basic[0]); i++)
        if (basic[i] == type)
            return 1;
    return 0;
}

int MTestCheckStatus(MPI_Status *status, MPI_Datatype type, int count, int source, int tag, bool verbose)
{
    int found, wrong = 0;

    if (MTestIsBasicDtype(type)) {
        MPI_Get_count(status, type, &found);
        wrong += found != count;
    }
    wrong += source != MPI_ANY_SOURCE && status->MPI_SOURCE != source;
    wrong += tag != MPI_ANY_TAG && status->MPI_TAG != tag;
    if (wrong && verbose)
        printf("a status is wrong\n");
    return wrong;
}

/* --- words of the command line --- */

struct words {
    int count;
    char **words;
};

MTestArgList *MTestArgListCreate(int argc, char *argv[])
{
    struct words *list = malloc(sizeof(*list));

    list->count = argc;
    list->words = argv;
    return list;
}

void MTestArgListDestroy(MTestArgList *list)
{
    free(list);
}

char *MTestArgListGetString(MTestArgList *list, const char *name)
{
    const struct words *all = list;
    size_t length = strlen(name);

    for (int i = 1; i < all->count; i++) {
        char *word = all->words[i];

        if (word[0] == '-' && strncmp(word + 1, name, length) == 0 && word[length + 1] == '=')
            return word + length + 2;
    }
    return NULL;
}

const char *MTestArgListGetString_with_default(MTestArgList *list, const char *name, const char *otherwise)
{
    const char *found = MTestArgListGetString(list, name);

    return found ? found : otherwise;
}

long MTestArgListGetLong_with_default(MTestArgList *list, const char *name, long otherwise)
{
    const char *found = MTestArgListGetString(list, name);

    return found ? atol(found) : otherwise;
}

long MTestArgListGetLong(MTestArgList *list, const char *name)
{
    const char *found = MTestArgListGetString(list, name);

    if (!found)
        MTestError("a word of the command line is missing");
    return atol(found);
}

int MTestArgListGetInt_with_default(MTestArgList *list, const char *name, int otherwise)
{
    return (int)MTestArgListGetLong_with_default(list, name, otherwise);
}

int MTestArgListGetInt(MTestArgList *list, const char *name)
{
    return (int)MTestArgListGetLong(list, name);
}

/* --- memory --- */

mtest_mem_type_e MTestArgListGetMemType(MTestArgList *list, const char *name)
{
    (void)list;
    (void)name;
    return MTEST_MEM_TYPE__UNREGISTERED_HOST;
}

const char *MTest_memtype_name(mtest_mem_type_e type)
{
    (void)type;
    return "host";
}

mtest_mem_type_e MTest_memtype_random(void)
{
    return MTEST_MEM_TYPE__UNREGISTERED_HOST;
}

void MTestAlloc(size_t size, mtest_mem_type_e type, void **host, void **device, bool zero, int number)
{
    (void)type;
    (void)number;
    *device = zero ? calloc(1, size) : malloc(size);
    if (host)
        *host = *device;
}

void MTestFree(mtest_mem_type_e type, void *host, void *device)
{
    (void)type;
    (void)host;
    free(device);
}

void MTestCopyContent(const void *from, void *to, size_t size, mtest_mem_type_e type)
{
    (void)type;
    if (from != to)
        memcpy(to, from, size);
}

MPI_Aint MTestDefaultMaxBufferSize(void)
{
    return 1 << 16;
}

int *MTestParseIntList(const char *text, int *count)
{
    int *numbers = malloc((strlen(text) + 1) * sizeof(int)), found = 0;

    for (const char *at = text; *at; at += *at == ',') {
        numbers[found++] = atoi(at);
        while (*at && *at != ',')
            at++;
    }
    *count = found;
    return numbers;
}
