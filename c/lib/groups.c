/* groups.c: MPI 4.1, 7.3. A group is a number (contexts.h). */
#include "../mpi.h"
#include "errors.h"
#include "contexts.h"

MPI_Group rvmc_group_of(const struct rvmc_communicator *of)
{
    MPI_Group group = MPI_GROUP_EMPTY;

    for (int place = 0; place < of->size; place++)
        group = rvmc_group_and(group, rvmc_rank_at(of, place));
    return group;
}

/* Whether the members are the same, in the same order or in another one. */
int rvmc_group_like(MPI_Group group, MPI_Group other)
{
    if (group == other)
        return MPI_IDENT;
    if (rvmc_group_size(group) != rvmc_group_size(other))
        return MPI_UNEQUAL;
    for (int place = 0; place < rvmc_group_size(group); place++)
        if (rvmc_group_place(other, rvmc_member_at(group, place)) < 0)
            return MPI_UNEQUAL;
    return MPI_SIMILAR;
}

int rvmc_wrong_group(const char *call, MPI_Group group)
{
    if (group >> 28 == 1)
        return MPI_SUCCESS;
    return rvmc_trapped(rvmc_raise(call, MPI_COMM_WORLD, MPI_ERR_GROUP, "group",
                                   group == MPI_GROUP_NULL ? "the group is MPI_GROUP_NULL" : "%d is no group", (long)group));
}

static int wrong_rank(const char *call, MPI_Group group, int rank)
{
    if (rank >= 0 && rank < rvmc_group_size(group))
        return MPI_SUCCESS;
    return rvmc_trapped(rvmc_raise(call, MPI_COMM_WORLD, MPI_ERR_RANK, "ranks", "rank %d, but the group has %d", (long)rank,
                                   (long)rvmc_group_size(group)));
}

static int wrong_count(const char *call, int count)
{
    if (count >= 0)
        return MPI_SUCCESS;
    return rvmc_trapped(rvmc_raise(call, MPI_COMM_WORLD, MPI_ERR_ARG, "n", "count %d is negative", (long)count));
}

int MPI_Group_size(MPI_Group group, int *size)
{
    *size = rvmc_group_size(group);
    return rvmc_wrong_group("MPI_Group_size", group);
}

int MPI_Group_rank(MPI_Group group, int *rank)
{
    int place = rvmc_group_place(group, rvmc_rank);

    *rank = place < 0 ? MPI_UNDEFINED : place;
    return rvmc_wrong_group("MPI_Group_rank", group);
}

int MPI_Group_translate_ranks(MPI_Group group, int count, const int ranks[], MPI_Group other, int others[])
{
    static const char call[] = "MPI_Group_translate_ranks";
    int error = rvmc_wrong_group(call, group);

    error = error ? error : rvmc_wrong_group(call, other);
    error = error ? error : wrong_count(call, count);
    for (int i = 0; i < count && !error; i++) {
        int place;

        if (ranks[i] == MPI_PROC_NULL) {
            others[i] = MPI_PROC_NULL;
            continue;
        }
        error = wrong_rank(call, group, ranks[i]);
        place = error ? -1 : rvmc_group_place(other, rvmc_member_at(group, ranks[i]));
        others[i] = place < 0 ? MPI_UNDEFINED : place;
    }
    return error;
}

int MPI_Group_compare(MPI_Group group, MPI_Group other, int *result)
{
    int error = rvmc_wrong_group("MPI_Group_compare", group);

    *result = rvmc_group_like(group, other);
    return error ? error : rvmc_wrong_group("MPI_Group_compare", other);
}

int MPI_Comm_group(MPI_Comm c, MPI_Group *group)
{
    const struct rvmc_communicator *of = rvmc_idle() ? 0 : rvmc_known(c);

    *group = of ? rvmc_group_of(of) : MPI_GROUP_NULL;
    return rvmc_comm_code("MPI_Comm_group", of ? RVMC_OK : rvmc_idle() ? RVMC_NOT_BEGUN : RVMC_BAD_COMM, c);
}

/* The ranks of a group that are in another one, or that aren't, behind those of a third. */
static int sifted(const char *call, MPI_Group begin, MPI_Group group, MPI_Group other, int in, MPI_Group *made)
{
    int error = rvmc_wrong_group(call, group);

    error = error ? error : rvmc_wrong_group(call, other);
    *made = begin;
    for (int place = 0; place < rvmc_group_size(group) && !error; place++)
        if ((rvmc_group_place(other, rvmc_member_at(group, place)) >= 0) == in)
            *made = rvmc_group_and(*made, rvmc_member_at(group, place));
    return error;
}

int MPI_Group_union(MPI_Group group, MPI_Group other, MPI_Group *made)
{
    return sifted("MPI_Group_union", group, other, group, 0, made);
}

int MPI_Group_intersection(MPI_Group group, MPI_Group other, MPI_Group *made)
{
    return sifted("MPI_Group_intersection", MPI_GROUP_EMPTY, group, other, 1, made);
}

int MPI_Group_difference(MPI_Group group, MPI_Group other, MPI_Group *made)
{
    return sifted("MPI_Group_difference", MPI_GROUP_EMPTY, group, other, 0, made);
}

/* The ranks at places of a group, each at most once. */
static int listed(const char *call, MPI_Group group, int count, const int ranks[], MPI_Group *made)
{
    int error = wrong_count(call, count);

    *made = MPI_GROUP_EMPTY;
    for (int i = 0; i < count && !error; i++) {
        error = wrong_rank(call, group, ranks[i]);
        if (!error && rvmc_group_place(*made, rvmc_member_at(group, ranks[i])) >= 0)
            error = rvmc_trapped(rvmc_raise(call, MPI_COMM_WORLD, MPI_ERR_RANK, "ranks", "rank %d stands there twice",
                                            (long)ranks[i]));
        if (!error)
            *made = rvmc_group_and(*made, rvmc_member_at(group, ranks[i]));
    }
    return error;
}

/* The same, of ranges: first, last and step. */
static int ranged(const char *call, MPI_Group group, int count, int ranges[][3], MPI_Group *made)
{
    int ranks[RVMC_COMMUNICATORS], n = 0, error = wrong_count(call, count);

    *made = MPI_GROUP_EMPTY;
    for (int i = 0; i < count && !error; i++) {
        int at = ranges[i][0], last = ranges[i][1], step = ranges[i][2];

        if (!step)
            return rvmc_trapped(rvmc_raise(call, MPI_COMM_WORLD, MPI_ERR_ARG, "ranges", "the step of a range is 0"));
        for (; (step > 0 ? at <= last : at >= last) && !error; at += step) {
            error = wrong_rank(call, group, at);
            if (!error && n == rvmc_group_size(group))
                error = rvmc_trapped(rvmc_raise(call, MPI_COMM_WORLD, MPI_ERR_RANK, "ranges", "rank %d stands there twice",
                                                (long)at));
            if (!error)
                ranks[n++] = at;
        }
    }
    return error ? error : listed(call, group, n, ranks, made);
}

int MPI_Group_incl(MPI_Group group, int count, const int ranks[], MPI_Group *made)
{
    int error = rvmc_wrong_group("MPI_Group_incl", group);

    return error ? error : listed("MPI_Group_incl", group, count, ranks, made);
}

int MPI_Group_excl(MPI_Group group, int count, const int ranks[], MPI_Group *made)
{
    MPI_Group without;
    int error = rvmc_wrong_group("MPI_Group_excl", group);

    error = error ? error : listed("MPI_Group_excl", group, count, ranks, &without);
    return error ? error : sifted("MPI_Group_excl", MPI_GROUP_EMPTY, group, without, 0, made);
}

int MPI_Group_range_incl(MPI_Group group, int count, int ranges[][3], MPI_Group *made)
{
    int error = rvmc_wrong_group("MPI_Group_range_incl", group);

    return error ? error : ranged("MPI_Group_range_incl", group, count, ranges, made);
}

int MPI_Group_range_excl(MPI_Group group, int count, int ranges[][3], MPI_Group *made)
{
    MPI_Group without;
    int error = rvmc_wrong_group("MPI_Group_range_excl", group);

    error = error ? error : ranged("MPI_Group_range_excl", group, count, ranges, &without);
    return error ? error : sifted("MPI_Group_range_excl", MPI_GROUP_EMPTY, group, without, 0, made);
}

int MPI_Group_free(MPI_Group *group)
{
    int error = rvmc_wrong_group("MPI_Group_free", *group);

    if (!error)
        *group = MPI_GROUP_NULL;
    return error;
}
