/* call.h: a call of the machine, as docs/CALLS.md numbers them, in C.
   The number goes into a7 and the arguments into a0 to a5; a0 comes back with the code and a1 with the value. The call is
   inline, so that the place where a hart waits is in the function that called. It names ra as clobbered: otherwise a
   function that calls nothing else keeps its return address in ra alone, and no debugger finds its caller. */
#ifndef RVMC_CALL_H
#define RVMC_CALL_H

#define RVMC_INLINE static inline __attribute__((always_inline, unused))

typedef struct {
    long code, value;
} rvmc_answer;

enum {
    RVMC_EXIT, RVMC_PUT, RVMC_RANK, RVMC_SIZE, RVMC_HART,
    RVMC_SEND = 16, RVMC_SSEND, RVMC_RECV, RVMC_ISEND, RVMC_ISSEND, RVMC_IRECV, RVMC_TEST, RVMC_WAIT,
    RVMC_IPROBE, RVMC_PROBE, RVMC_IMPROBE, RVMC_MPROBE, RVMC_IMRECV, RVMC_MRECV,
    RVMC_SEND_INIT, RVMC_RECV_INIT, RVMC_START, RVMC_REQUEST_FREE, RVMC_TESTALL, RVMC_WAITALL,
    RVMC_PSEND_INIT = 40, RVMC_PRECV_INIT, RVMC_PREADY, RVMC_PARRIVED
};

/* The codes that the library tells apart by name: those of the machine, and behind them its own. */
enum {
    RVMC_OK = 0, RVMC_BAD_BUFFER = 1, RVMC_BAD_COUNT = 2, RVMC_BAD_TAG = 3, RVMC_BAD_RANK = 4, RVMC_BAD_COMM = 5,
    RVMC_BAD_REQUEST = 6, RVMC_TRUNCATED = 7, RVMC_FULL = 8, RVMC_BAD_PARTITION = 9, RVMC_NO_CHANNEL = 10,
    RVMC_SHAPE_DIFFERS = 11, RVMC_STILL_ACTIVE = 12, RVMC_BAD_MESSAGE = 14, RVMC_ALREADY_READY = 15, RVMC_NOT_ACTIVE = 16,
    RVMC_CODES = 17,
    RVMC_LARGE_PROBE = RVMC_CODES, RVMC_BAD_ROOT, RVMC_BAD_OP, RVMC_OTHER_COUNT, RVMC_NO_MEMORY, RVMC_IN_PLACE,
    RVMC_PARTS_AMONG, RVMC_NOT_BEGUN, RVMC_BEGUN_TWICE, RVMC_BAD_TYPE, RVMC_ALIASED, RVMC_NOT_READY, RVMC_NO_BUFFER,
    RVMC_TWO_BUFFERS, RVMC_NO_CANCEL, RVMC_SEVERAL_HARTS, RVMC_MISMATCH,
    RVMC_TOO_MANY, RVMC_LATER_FAILED, RVMC_MISORDER, RVMC_OPEN_COLLECTIVE
};

/* The tags of the twin. A rank sends itself those of harts and mutexes. */
enum {
    RVMC_TAG_COLLECTIVE = 0,                  /* and the communicator, below 8: of collectives that wait, and of its end */
    RVMC_TAG_IDUP = 8,                        /* and the communicator: MPI_Comm_idup */
    RVMC_TAG_FREE = 96,                       /* a hart that has no thread */
    RVMC_TAG_HEAP = 97,                       /* the heap, which no hart is at work on */
    RVMC_TAG_WORK = 104,                      /* and the hart: there is work for it, or the end; start.S has it too */
    RVMC_TAG_DONE = 108,                      /* and the hart: its thread has returned */
    RVMC_TAG_AGAIN = 112,                     /* and the hart: a message that was claimed, on its way to a request */
    RVMC_TAG_MUTEX = 116,                     /* and the mutex, below 800 */
    RVMC_TAG_GROUP = 920,                     /* and 8 times the communicator and some of a tag: MPI_Comm_create_group */
    RVMC_TAG_MEETING = 984,                   /* and the communicator: rvmc-cc --synchronizing; rvmc-mpi has it too */
    RVMC_TAG_CONTEXT = 1000,                  /* a hart may make a communicator */
    RVMC_TAG_REST = 1024,                     /* and the number of a large message: its pieces behind the first */
    RVMC_TAG_LATER = 29056,                   /* and 448 times the communicator and a number: collectives that don't wait */
    RVMC_MOST_LATER = 448
};
#define RVMC_MOST_TAG 32767

#define RVMC_PIECE 4096                           /* the most bytes of a message of the machine */

/* What a SEND of the library's own has in a5, which the machine doesn't read: the bytes of "buffered". MPI lets MPI_Send wait
   for its receive, but not what the library sends beside it: collectives, pieces of a large message, MPI_Sendrecv, messages
   of a rank to itself. So `rvmc explore` lets no SEND rest that says so (nor a WAIT: the library waits for no ISEND of its own). */
#define RVMC_IS_BUFFERED 0x6465726566667562L

/* How often the clock was read since the last call (clock.c). */
extern unsigned long rvmc_looks;

RVMC_INLINE rvmc_answer rvmc_call(long number, long x0, long x1, long x2, long x3, long x4, long x5)
{
    register long a0 __asm__("a0") = x0;
    register long a1 __asm__("a1") = x1;
    register long a2 __asm__("a2") = x2;
    register long a3 __asm__("a3") = x3;
    register long a4 __asm__("a4") = x4;
    register long a5 __asm__("a5") = x5;
    register long a7 __asm__("a7") = number;
    __asm__ volatile("ecall"
                     : "+r"(a0), "+r"(a1)
                     : "r"(a2), "r"(a3), "r"(a4), "r"(a5), "r"(a7)
                     : "memory", "ra");
#ifdef RVMC_CHECK
    /* The compiler calls a function before the store, which has these registers for its own. */
    rvmc_answer answer = {a0, a1};

    rvmc_looks = 0;
    return answer;
#else
    rvmc_looks = 0;
    return (rvmc_answer){a0, a1};
#endif
}

/* What the linker is told of the image: numbers in the place of addresses. The communicators are those of --comm. */
extern char rvmc_harts[], rvmc_stack[], rvmc_communicators[], rvmc_stacks[], rvmc_memory[];
/* What --check has of each stack for itself, and what a stack has beside that where there is memory enough. */
extern char rvmc_spare_stack[], rvmc_usual_stack[];
/* 2 with --synchronizing, where each collective waits for all of its members; else 1. */
extern char rvmc_meetings[];
/* With --check 2, or 1 where what is found is only told; else 0. */
extern char rvmc_check_traps[];
#define RVMC_NUMBER(symbol) ((long)(symbol))
/* The machine's communicator in which the library talks, of all ranks. start.S has it too. */
#define RVMC_TWIN 1

extern int rvmc_rank;                             /* the rank's number, its position in communicator 0 */
extern _Thread_local int rvmc_hart;

#endif
