/* guards.c: null pointers and stacks that are full. -DCASE=N does the N-th of them; docs/C.md says which are caught. */
#include <mpi.h>
#include <stdio.h>
#include <string.h>
#include <threads.h>

typedef struct {
    int first, second, many[2000];
} box_t;

/* the compiler has to believe that they may be anything */
static int *volatile number;
static box_t *volatile box;
static int (*volatile function)(void);
static volatile int depth = 1;

static int read_number(void) { return *number; }
static int write_number(void) { *number = 1; return 0; }
static int read_field(void) { return box->second; }
static int write_field(void) { box->second = 1; return 0; }
static int read_element(void) { return number[3]; }
static int read_array(void) { return box->many[1500]; }
static int call_function(void) { return function(); }
static int send_null(void) { return MPI_Send(number, 1, MPI_INT, 0, 0, MPI_COMM_WORLD); }
static int copy_to_null(void) { memset(number, 1, 4); return 0; }

/* takes 64 bytes and more for each call, for ever */
static int sink(int n)
{
    volatile char room[64];

    room[n % 64] = (char)n;
    return depth ? sink(n + 1) + room[n % 64] : 0;
}

static int sink_in_main(void) { return sink(0); }

/* takes more than its own 16,384 bytes, and ends */
static int sink_a_little(void *argument)
{
    volatile char room[17000];

    (void)argument;
    for (unsigned i = 0; i < sizeof room; i++)
        room[i] = 7;
    return room[0];
}

static int sink_in_thread(void)
{
    thrd_t thread;

    thrd_create(&thread, sink_a_little, 0);
    return thrd_join(thread, 0);
}

static int (*const cases[])(void) = {
    read_number, write_number, read_field, write_field, read_element, read_array, call_function, send_null, copy_to_null,
    sink_in_main, sink_in_thread,
};

int main(int argc, char **argv)
{
    MPI_Init(&argc, &argv);
    printf("before\n");
    cases[CASE - 1]();
    printf("not caught\n");
    MPI_Finalize();
    return 0;
}
