/* folds.c: what an operation does to two arrays, for each shape of datatype: the table of 6.9.2, and the logical operations
   of floating-point numbers, which MPICH has too. */
#define RVMC_REDUCTIONS
#include <stdbool.h>
#include "../mpi.h"

/* into becomes: before, op, into. */
#define FOLD(name, type, cases) \
    long rvmc_fold_##name(void *into, const void *before, long count, MPI_Op op) \
    { \
        typedef type element; \
        element *x = into; \
        const element *y = before; \
        for (long i = 0; i < count; i++) \
            switch (op) { \
            cases \
            default: return RVMC_BAD_OP; \
            } \
        return RVMC_OK; \
    }
#define SUMS \
    case MPI_SUM: x[i] = (element)(y[i] + x[i]); break; \
    case MPI_PROD: x[i] = (element)(y[i] * x[i]); break;
#define ARITHMETIC \
    SUMS \
    case MPI_MAX: x[i] = y[i] > x[i] ? y[i] : x[i]; break; \
    case MPI_MIN: x[i] = y[i] < x[i] ? y[i] : x[i]; break;
#define LOGICAL \
    case MPI_LAND: x[i] = y[i] && x[i]; break; \
    case MPI_LOR: x[i] = y[i] || x[i]; break; \
    case MPI_LXOR: x[i] = !y[i] != !x[i]; break;
#define BITWISE \
    case MPI_BAND: x[i] = (element)(y[i] & x[i]); break; \
    case MPI_BOR: x[i] = (element)(y[i] | x[i]); break; \
    case MPI_BXOR: x[i] = (element)(y[i] ^ x[i]); break;

FOLD(int8, signed char, ARITHMETIC LOGICAL BITWISE)
FOLD(int16, short, ARITHMETIC LOGICAL BITWISE)
FOLD(int32, int, ARITHMETIC LOGICAL BITWISE)
FOLD(int64, long, ARITHMETIC LOGICAL BITWISE)
FOLD(uint8, unsigned char, ARITHMETIC LOGICAL BITWISE)
FOLD(uint16, unsigned short, ARITHMETIC LOGICAL BITWISE)
FOLD(uint32, unsigned, ARITHMETIC LOGICAL BITWISE)
FOLD(uint64, unsigned long, ARITHMETIC LOGICAL BITWISE)
FOLD(byte, unsigned char, BITWISE)
FOLD(truth8, bool, LOGICAL)
FOLD(truth32, int, LOGICAL)
FOLD(float, float, ARITHMETIC LOGICAL)
FOLD(double, double, ARITHMETIC LOGICAL)
FOLD(long_double, long double, ARITHMETIC LOGICAL)
FOLD(float_complex, float _Complex, SUMS)
FOLD(double_complex, double _Complex, SUMS)
FOLD(long_double_complex, long double _Complex, SUMS)

/* 6.9.4: of two equal values the lower index counts. */
#define FOLD_PAIR(name, value, place) \
    long rvmc_fold_##name(void *into, const void *before, long count, MPI_Op op) \
    { \
        struct pair { \
            value it; \
            place at; \
        } *x = into; \
        const struct pair *y = before; \
        for (long i = 0; i < count; i++) { \
            if (op != MPI_MAXLOC && op != MPI_MINLOC) \
                return RVMC_BAD_OP; \
            if (y[i].it == x[i].it ? y[i].at < x[i].at : (y[i].it > x[i].it) == (op == MPI_MAXLOC)) \
                x[i] = y[i]; \
        } \
        return RVMC_OK; \
    }
FOLD_PAIR(float_int, float, int)
FOLD_PAIR(double_int, double, int)
FOLD_PAIR(long_double_int, long double, int)
FOLD_PAIR(long_int, long, int)
FOLD_PAIR(short_int, short, int)
FOLD_PAIR(two_ints, int, int)
FOLD_PAIR(two_floats, float, float)
FOLD_PAIR(two_doubles, double, double)

/* Where a program doesn't name its datatype, all of them are linked. */
rvmc_fold *rvmc_fold_of(MPI_Datatype type)
{
    return rvmc_fold_chosen(type);
}
