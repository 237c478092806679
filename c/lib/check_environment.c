/* check_environment.c: the beginning and the end of MPI under --check, and by which threads its calls are made. */
#include "checked.h"
#include "group.h"

static int level = MPI_THREAD_MULTIPLE, main_hart;    /* what the program asked for, and the hart that did */
static const char *asker = "MPI_Init_thread";
static unsigned asked;                                /* by which call, and where */
static const char *inside;                            /* a call that a hart is in, where calls may not meet */
static unsigned inside_behind;
static int inside_hart = -1;

static const char *const levels[] = {"MPI_THREAD_SINGLE", "MPI_THREAD_FUNNELED", "MPI_THREAD_SERIALIZED"};


void rvmc_check_begin(const char *call, unsigned behind)
{
    if (level >= MPI_THREAD_MULTIPLE)
        return;
    if (level <= MPI_THREAD_FUNNELED && rvmc_hart != main_hart)
        RVMC_TELL(behind, asked, "%s is called by another thread than the main one, but %s asked for %s",
                  rvmc_check_call(call, behind), rvmc_check_call(asker, asked), levels[level]);
    else if (level == MPI_THREAD_SERIALIZED && inside_hart >= 0 && inside_hart != rvmc_hart)
        RVMC_TELL(behind, inside_behind, "%s and %s are called by two threads at once, but %s asked for %s",
                  rvmc_check_call(call, behind), rvmc_check_call(inside, inside_behind), rvmc_check_call(asker, asked),
                  levels[level]);
    inside = call;
    inside_behind = behind;
    inside_hart = rvmc_hart;
}

int rvmc_check_end(int code)
{
    if (inside_hart == rvmc_hart)
        inside_hart = -1;
    return code;
}

int rvmc_checked_Init(int *argc, char ***argv)
{
    int code = MPI_Init(argc, argv);

    asker = "MPI_Init";
    asked = RVMC_BEHIND;
    level = MPI_THREAD_SINGLE;
    main_hart = rvmc_hart;
    return code;
}

int rvmc_checked_Init_thread(int *argc, char ***argv, int required, int *provided)
{
    int code = MPI_Init_thread(argc, argv, required, provided);

    asked = RVMC_BEHIND;
    level = required;
    main_hart = rvmc_hart;
    return code;
}

/* What MPI_Finalize does first, before all ranks meet. */
static void end_early(void)
{
    if (rvmc_at_the_end)
        rvmc_at_the_end();
    rvmc_at_the_end = 0;
}

/* All ranks meet by the name of MPI_Finalize: one that is in another collective meanwhile is told. Returns whether this rank has
   received all that was sent to it, which is there by then. */
static int meet_all(unsigned behind)
{
    struct group g = rvmc_group_at("MPI_Finalize", MPI_COMM_WORLD, (const void *)(unsigned long)behind);
    int all;

    rvmc_order_stops(&g);
    all = rvmc_all_received(&g);
    finish(&g);
    return all;
}

/* All that a rank has left behind is told before it traps. What it hasn't freed is told once all ranks have come here: where one of
   them waits for ever, that matters more. */
int rvmc_checked_Finalize(void)
{
    unsigned behind = RVMC_BEHIND;

    rvmc_check_begin("MPI_Finalize", behind);
    if (!rvmc_idle()) {
        rvmc_requests_at_the_end(behind);
        rvmc_heap_at_the_end(behind);
        if (!rvmc_told)
            end_early();
        if (!rvmc_told && !meet_all(behind) && !rvmc_told)
            rvmc_messages_at_the_end(behind);
        rvmc_handles_at_the_end(behind);
    }
    if (rvmc_told)
        return MPI_SUCCESS;
    return rvmc_check_end(MPI_Finalize());
}
