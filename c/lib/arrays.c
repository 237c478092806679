/* arrays.c: datatypes of a part of an array: a box of it (MPI 4.1, 5.1.3), or what one of several processes has of it
   (5.1.4). They are made from the dimension that lies closest in memory outwards: each is a datatype of the one within it,
   and its extent is all of the dimension. */
#include "../mpi.h"
#include "layouts.h"

/* What is taken of a dimension: so many elements from a first one on, and again at each step. */
struct taken {
    int all, first, length, step;
};

static int least(int a, int b)
{
    return a < b ? a : b;
}

static int runs_of(const struct taken *t)
{
    return t->length > 0 && t->first < t->all ? (t->all - t->first + t->step - 1) / t->step : 0;
}

/* Fills in the blocks of one dimension, and gives the datatype its bounds. */
static int make_dimension(const char *call, struct rvmc_layout *l, const struct taken *t, MPI_Datatype within, MPI_Datatype *made)
{
    struct rvmc_layout one = rvmc_measures(within);
    long extent = one.high - one.low;
    int error;

    if (!l)
        return MPI_ERR_NO_MEM;
    for (int i = 0; i < l->count; i++) {
        int first = t->first + i * t->step;

        l->blocks[i] = (struct rvmc_block){first * extent, least(t->length, t->all - first), within};
    }
    error = rvmc_made_type(call, l, made);
    if (!error) {
        l->low = 0;
        l->high = t->all * extent;
        l->low_set = l->high_set = 1;
    }
    return error;
}

/* All dimensions. Only the outermost datatype is the program's. */
static int make_array(const char *call, int combiner, const struct rvmc_part *parts, int dimensions, const struct taken *taken,
                      int order, MPI_Datatype type, MPI_Datatype *made)
{
    MPI_Datatype within = type;
    int error = MPI_SUCCESS;

    for (int i = 0; i < dimensions && !error; i++) {
        const struct taken *t = taken + (order == MPI_ORDER_C ? dimensions - 1 - i : i);
        int last = i == dimensions - 1;
        struct rvmc_layout *l = rvmc_new_contents(call, runs_of(t), combiner, last ? parts : RVMC_PARTS({0, 0}), 0, 0, last,
                                                  &type);
        MPI_Datatype before = within;

        error = make_dimension(call, l, t, before, made);
        within = *made;
        if (i > 0)
            MPI_Type_free(&before);
    }
    return error;
}

static int check(const char *call, int dimensions, int order, MPI_Datatype type)
{
    int error = rvmc_check_argument(call, "ndims", dimensions > 0, dimensions);

    error = error ? error : rvmc_check_argument(call, "order", order == MPI_ORDER_C || order == MPI_ORDER_FORTRAN, order);
    return error ? error : rvmc_check_type(call, "oldtype", type, 0);
}

int MPI_Type_create_subarray(int dimensions, const int sizes[], const int subsizes[], const int starts[], int order,
                             MPI_Datatype type, MPI_Datatype *made)
{
    static const char call[] = "MPI_Type_create_subarray";
    int error = check(call, dimensions, order, type);
    struct taken taken[dimensions > 0 ? dimensions : 1];

    for (int i = 0; i < dimensions && !error; i++) {
        error = rvmc_check_argument(call, "array_of_sizes", sizes[i] > 0, sizes[i]);
        if (!error)
            error = rvmc_check_argument(call, "array_of_subsizes", subsizes[i] > 0 && subsizes[i] <= sizes[i], subsizes[i]);
        if (!error)
            error = rvmc_check_argument(call, "array_of_starts", starts[i] >= 0 && starts[i] <= sizes[i] - subsizes[i], starts[i]);
        taken[i] = (struct taken){sizes[i], starts[i], subsizes[i], sizes[i]};
    }
    if (error)
        return error;
    return make_array(call, MPI_COMBINER_SUBARRAY, RVMC_PARTS({&dimensions, 1}, {sizes, dimensions}, {subsizes, dimensions},
                      {starts, dimensions}, {&order, 1}), dimensions, taken, order, type, made);
}

/* What a process of so many has of a dimension of so many elements. */
static int distribute(const char *call, struct taken *t, int distribution, int argument, int processes, int place)
{
    int all = t->all, length = argument, ok = 1;

    switch (distribution) {
    case MPI_DISTRIBUTE_NONE:
        *t = (struct taken){all, 0, all, all};
        return rvmc_check_argument(call, "array_of_psizes", processes == 1, processes);
    case MPI_DISTRIBUTE_BLOCK:
        if (argument == MPI_DISTRIBUTE_DFLT_DARG)
            length = (all + processes - 1) / processes;
        ok = length > 0 && (long)length * processes >= all;
        *t = (struct taken){all, least(place * length, all), length, all};
        break;
    case MPI_DISTRIBUTE_CYCLIC:
        if (argument == MPI_DISTRIBUTE_DFLT_DARG)
            length = 1;
        ok = length > 0;
        *t = (struct taken){all, place * length, length, processes * length};
        break;
    default:
        return rvmc_check_argument(call, "array_of_distribs", 0, distribution);
    }
    return rvmc_check_argument(call, "array_of_dargs", ok, argument);
}

int MPI_Type_create_darray(int size, int rank, int dimensions, const int sizes[], const int distributions[],
                           const int arguments[], const int processes[], int order, MPI_Datatype type, MPI_Datatype *made)
{
    static const char call[] = "MPI_Type_create_darray";
    int error = check(call, dimensions, order, type), left = size, place = rank;
    struct taken taken[dimensions > 0 ? dimensions : 1];

    error = error ? error : rvmc_check_argument(call, "size", size > 0, size);
    error = error ? error : rvmc_check_argument(call, "rank", rank >= 0 && rank < size, rank);
    /* the processes stand in a grid, the last dimension of which goes fastest in both orders */
    for (int i = 0; i < dimensions && !error; i++) {
        error = rvmc_check_argument(call, "array_of_gsizes", sizes[i] > 0, sizes[i]);
        if (!error)
            error = rvmc_check_argument(call, "array_of_psizes", processes[i] > 0 && left % processes[i] == 0, processes[i]);
        if (error)
            break;
        left /= processes[i];
        taken[i].all = sizes[i];
        error = distribute(call, taken + i, distributions[i], arguments[i], processes[i], place / left);
        place %= left;
    }
    error = error ? error : rvmc_check_argument(call, "array_of_psizes", left == 1, size);
    if (error)
        return error;
    return make_array(call, MPI_COMBINER_DARRAY, RVMC_PARTS({&size, 1}, {&rank, 1}, {&dimensions, 1}, {sizes, dimensions},
                      {distributions, dimensions}, {arguments, dimensions}, {processes, dimensions}, {&order, 1}),
                      dimensions, taken, order, type, made);
}
