/* mtest_dtp.h: of the helper of this name the part that tests of collectives call: with which count, and in which memory,
   they run. Here that is once, in memory of the host. Generated datatypes aren't here. */
#ifndef CORPUS_MTEST_DTP_H
#define CORPUS_MTEST_DTP_H
#include "mpitest.h"

typedef enum { MTEST_COLL_NOCOUNT, MTEST_COLL_COUNT } mtest_dtp_arg_type_e;

struct dtp_args {
    int count, runs;
    union {
        struct {
            mtest_mem_type_e oddmem, evenmem;
        } coll;
    } u;
};

static inline void dtp_args_init(struct dtp_args *args, mtest_dtp_arg_type_e kind, int argc, char *argv[])
{
    MTestArgList *list = MTestArgListCreate(argc, argv);

    args->runs = 0;
    args->count = kind == MTEST_COLL_COUNT ? MTestArgListGetInt_with_default(list, "count", 10) : 0;
    args->u.coll.oddmem = MTestArgListGetMemType(list, "oddmemtype");
    args->u.coll.evenmem = MTestArgListGetMemType(list, "evenmemtype");
    MTestArgListDestroy(list);
}

static inline bool dtp_args_get_next(struct dtp_args *args)
{
    return args->runs++ == 0;
}

static inline void dtp_args_finalize(struct dtp_args *args)
{
    (void)args;
}

#endif
