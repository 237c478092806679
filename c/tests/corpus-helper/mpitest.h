/* mpitest.h: a small helper of this repository's own, under the names that MPICH's tests call, for c/tests/corpus. It runs
   a test on MPI_COMM_WORLD alone, with memory of the host alone. What MPICH's helper makes of communicators between groups,
   and of generated datatypes, isn't here: a test that asks for it doesn't compile. */
#ifndef CORPUS_MPITEST_H
#define CORPUS_MPITEST_H
#include "mpitestconf.h"
#include <mpi.h>
#include <stdbool.h>
#include <stdio.h>
#include <stdlib.h>
#include <string.h>
#include <unistd.h>

#define MTEST_HAVE_MIN_MPI_VERSION(major, minor)                                                                         \
    (MPI_VERSION > (major) || (MPI_VERSION == (major) && MPI_SUBVERSION >= (minor)))
#define MTEST_VG_MEM_INIT(address, size) memset(address, 0, size)

/* --- begin, end, and what is told --- */

void MTest_Init(int *argc, char ***argv);
void MTest_Init_thread(int *argc, char ***argv, int required, int *provided);
void MTest_Finalize(int errors);
int MTestReturnValue(int errors);
void MTestPrintError(int code);
void MTestPrintErrorMsg(const char text[], int code);
void MTestPrintfMsg(int level, const char format[], ...);
void MTestError(const char text[]);
void MTestSleep(int seconds);

/* --- communicators --- */

int MTestGetIntracomm(MPI_Comm *comm, int least);
int MTestGetIntracommGeneral(MPI_Comm *comm, int least, int smaller);
/* communicators of any kind: here too it is MPI_COMM_WORLD */
int MTestGetComm(MPI_Comm *comm, int least);
const char *MTestGetIntracommName(void);
int MTestTestComm(MPI_Comm comm);
int MTestTestIntracomm(MPI_Comm comm);
void MTestFreeComm(MPI_Comm *comm);

/* --- statuses --- */

int MTestIsBasicDtype(MPI_Datatype type);
int MTestCheckStatus(MPI_Status *status, MPI_Datatype type, int count, int source, int tag, bool verbose);

/* --- words of the command line: -name=value --- */

typedef void MTestArgList;
MTestArgList *MTestArgListCreate(int argc, char *argv[]);
void MTestArgListDestroy(MTestArgList *list);
char *MTestArgListGetString(MTestArgList *list, const char *name);
const char *MTestArgListGetString_with_default(MTestArgList *list, const char *name, const char *otherwise);
int MTestArgListGetInt(MTestArgList *list, const char *name);
int MTestArgListGetInt_with_default(MTestArgList *list, const char *name, int otherwise);
long MTestArgListGetLong(MTestArgList *list, const char *name);
long MTestArgListGetLong_with_default(MTestArgList *list, const char *name, long otherwise);

/* --- memory: of the host, whatever is asked for --- */

typedef enum {
    MTEST_MEM_TYPE__UNSET,
    MTEST_MEM_TYPE__UNREGISTERED_HOST,
    MTEST_MEM_TYPE__REGISTERED_HOST,
    MTEST_MEM_TYPE__DEVICE,
    MTEST_MEM_TYPE__SHARED,
    MTEST_MEM_TYPE__RANDOM,
    MTEST_MEM_TYPE__ALL
} mtest_mem_type_e;

mtest_mem_type_e MTestArgListGetMemType(MTestArgList *list, const char *name);
const char *MTest_memtype_name(mtest_mem_type_e type);
mtest_mem_type_e MTest_memtype_random(void);
void MTestAlloc(size_t size, mtest_mem_type_e type, void **host, void **device, bool zero, int number);
#define MTestMalloc(size, type, host, device, number) MTestAlloc(size, type, host, device, false, number)
#define MTestCalloc(size, type, host, device, number) MTestAlloc(size, type, host, device, true, number)
void MTestFree(mtest_mem_type_e type, void *host, void *device);
void MTestCopyContent(const void *from, void *to, size_t size, mtest_mem_type_e type);
MPI_Aint MTestDefaultMaxBufferSize(void);
int *MTestParseIntList(const char *text, int *count);

#endif
