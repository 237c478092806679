/* layouts.h: derived datatypes (MPI 4.1, 5.1), as the files that make, ask and pack them share them. */
#ifndef RVMC_LAYOUTS_H
#define RVMC_LAYOUTS_H

/* So many elements of a datatype, each its extent behind the one before, the first at a place in bytes. */
struct rvmc_block {
    long place, length;
    MPI_Datatype type;
};

/* What a datatype was made with, as MPI_Type_get_contents gives it back. */
struct rvmc_contents {
    int combiner, integers, addresses, types;
    int *integer;
    MPI_Aint *address;
    MPI_Datatype *type;
};

/* The bytes of a datatype: its blocks, repeated so many times at a stride. Its data have `bytes` in a message, where a pair
   has its gap too, and `size` as MPI counts them. */
struct rvmc_layout {
    int handles, uses;                            /* of the program; of it, of other datatypes and of requests */
    int committed, align;
    int low_set, high_set;                        /* a bound that was set counts before all others (5.1.6) */
    int solid;                                    /* the data are one run of bytes, from the true lower bound on */
    long bytes, size, elements;
    long low, high, true_low, true_high;
    long times, stride;
    int count;
    struct rvmc_block *blocks;
    struct rvmc_contents contents;
};

/* The layout of a derived datatype, or null for other handles. */
struct rvmc_layout *rvmc_layout_of(MPI_Datatype type);

/* What counts for one of a datatype, derived or basic; all 0 for what is no datatype. */
struct rvmc_layout rvmc_measures(MPI_Datatype type);

/* Integers of which one behind the other the contents consist. */
struct rvmc_part {
    const int *from;
    int count;
};
#define RVMC_PARTS(...) (const struct rvmc_part[]){__VA_ARGS__, {0, 0}}

/* A new layout of so many blocks, which the caller fills in, or null where there is no room. It ends its making by
   rvmc_made_type, which works out what follows from the blocks, and gives it a handle. */
struct rvmc_layout *rvmc_new_contents(const char *call, int count, int combiner, const struct rvmc_part *parts, int addresses,
                                      const MPI_Aint *address, int types, const MPI_Datatype *type);
int rvmc_made_type(const char *call, struct rvmc_layout *layout, MPI_Datatype *made);

/* Lets the inline calls and the collectives know of such datatypes. */
void rvmc_derived_begin(void);

/* Attributes of a datatype are copied to another one, or deleted where that is null; an error of the program's function. */
extern int (*rvmc_attributes_of_types)(MPI_Datatype from, MPI_Datatype to);

void rvmc_use_type(MPI_Datatype type);
void rvmc_leave_type(MPI_Datatype type);

/* Whether a call can take a datatype: 0, or an error of the class TYPE. */
int rvmc_check_type(const char *call, const char *argument, MPI_Datatype type, int committed);

/* Whether an argument is in a range: 0, or an error of the class ARG; of the class COUNT for a negative count. */
int rvmc_check_argument(const char *call, const char *argument, int ok, long value);
int rvmc_check_count(const char *call, const char *argument, long count);

/* Copies between a place laid out by a datatype and packed bytes, of which there are so many. Answers how many it copied. */
long rvmc_pack(char *packed, long size, const void *place, long count, MPI_Datatype type);
long rvmc_unpack(const char *packed, long size, void *place, long count, MPI_Datatype type);

/* How many basic elements so many bytes are at the beginning of data, or -1 where the last isn't whole. */
long rvmc_elements_in(long bytes, MPI_Datatype type);

#endif
