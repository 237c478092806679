/* constants.h: types and constants of MPI 4.1. Where the standard leaves a number open it is MPICH's, if a program can
   print it. */
#ifndef RVMC_CONSTANTS_H
#define RVMC_CONSTANTS_H

typedef long MPI_Request, MPI_Message, MPI_Aint, MPI_Count, MPI_Offset;
typedef int MPI_Comm, MPI_Group, MPI_Datatype, MPI_Op, MPI_Info, MPI_Errhandler, MPI_Fint;

/* The three words of 8 bytes that the machine writes, low byte first. So the fields are the lower halves, and MPI_ERROR is
   the upper half of the number of bytes: 0, which is MPI_SUCCESS, in each status that the machine writes. */
typedef struct MPI_Status {
    int MPI_SOURCE, rvmc_source_sign;
    int MPI_TAG, rvmc_tag_sign;
    int rvmc_bytes, MPI_ERROR;
} MPI_Status;

typedef int MPI_Grequest_query_function(void *state, MPI_Status *status);
typedef int MPI_Grequest_free_function(void *state);
typedef int MPI_Grequest_cancel_function(void *state, int complete);
typedef void MPI_User_function(void *in, void *inout, int *length, MPI_Datatype *type);
typedef void MPI_Comm_errhandler_function(MPI_Comm *c, int *code, ...);
typedef MPI_Comm_errhandler_function MPI_Comm_errhandler_fn, MPI_Handler_function;
typedef int MPI_Comm_copy_attr_function(MPI_Comm c, int key, void *extra, void *value, void *copy, int *flag);
typedef int MPI_Comm_delete_attr_function(MPI_Comm c, int key, void *value, void *extra);
typedef MPI_Comm_copy_attr_function MPI_Copy_function;
typedef MPI_Comm_delete_attr_function MPI_Delete_function;
typedef int MPI_Type_copy_attr_function(MPI_Datatype type, int key, void *extra, void *value, void *copy, int *flag);
typedef int MPI_Type_delete_attr_function(MPI_Datatype type, int key, void *value, void *extra);

#define MPI_VERSION 4
#define MPI_SUBVERSION 1
#define MPI_COMM_WORLD 0
#define MPI_COMM_SELF 1
#define MPI_COMM_NULL (-1)
#define MPI_GROUP_NULL 0
#define MPI_GROUP_EMPTY (1 << 28)
/* With --check it is another number than that of the machine: then a rank that was computed as -1 isn't taken for it. */
#define RVMC_CHECKED_ANY_SOURCE (-1001)
#ifdef RVMC_CHECK
#define MPI_ANY_SOURCE RVMC_CHECKED_ANY_SOURCE
#else
#define MPI_ANY_SOURCE (-1)
#endif
#define MPI_ANY_TAG (-1)
#define MPI_PROC_NULL (-2)
#define MPI_ROOT (-3)
#define MPI_UNDEFINED (-32766)
#define MPI_REQUEST_NULL 0L
#define MPI_MESSAGE_NULL 0L
#define MPI_MESSAGE_NO_PROC (-2L)
#define MPI_STATUS_IGNORE ((MPI_Status *)0)
#define MPI_STATUSES_IGNORE ((MPI_Status *)0)
#define MPI_ERRCODES_IGNORE ((int *)0)
#define MPI_ARGV_NULL ((char **)0)
#define MPI_ARGVS_NULL ((char ***)0)
#define MPI_BOTTOM ((void *)0)
#define MPI_IN_PLACE ((void *)-1L)
#define MPI_INFO_NULL 0
#define MPI_INFO_ENV 1
#define MPI_ERRHANDLER_NULL (-1)
#define MPI_ERRORS_ARE_FATAL 0
#define MPI_ERRORS_RETURN 1
#define MPI_ERRORS_ABORT 2
#define MPI_BSEND_OVERHEAD 96
#define MPI_MAX_ERROR_STRING 256
#define MPI_MAX_PROCESSOR_NAME 128
#define MPI_MAX_LIBRARY_VERSION_STRING 256
#define MPI_MAX_OBJECT_NAME 128
#define MPI_MAX_INFO_KEY 255
#define MPI_MAX_INFO_VAL 1024
#define MPI_THREAD_SINGLE 0
#define MPI_THREAD_FUNNELED 1
#define MPI_THREAD_SERIALIZED 2
#define MPI_THREAD_MULTIPLE 3
#define MPI_GRAPH 1
#define MPI_CART 2
#define MPI_DIST_GRAPH 3
#define MPI_UNWEIGHTED ((int *)-3L)
#define MPI_WEIGHTS_EMPTY ((int *)-4L)
#define MPI_COMM_TYPE_SHARED 1
#define MPI_COMM_TYPE_HW_GUIDED 2
#define MPI_COMM_TYPE_HW_UNGUIDED 3
#define MPI_COMM_TYPE_RESOURCE_GUIDED 4
#define MPI_IDENT 0
#define MPI_CONGRUENT 1
#define MPI_SIMILAR 2
#define MPI_UNEQUAL 3

/* Attributes that MPI_COMM_WORLD has (9.1.2), and functions of attributes that do nothing or copy (7.7.2). */
#define MPI_KEYVAL_INVALID 0
#define MPI_TAG_UB 1
#define MPI_HOST 2
#define MPI_IO 3
#define MPI_WTIME_IS_GLOBAL 4
#define MPI_UNIVERSE_SIZE 5
#define MPI_LASTUSEDCODE 6
#define MPI_APPNUM 7
#define MPI_NULL_COPY_FN ((MPI_Copy_function *)0)
#define MPI_NULL_DELETE_FN ((MPI_Delete_function *)0)
#define MPI_DUP_FN rvmc_dup_attribute
#define MPI_COMM_NULL_COPY_FN ((MPI_Comm_copy_attr_function *)0)
#define MPI_COMM_NULL_DELETE_FN ((MPI_Comm_delete_attr_function *)0)
#define MPI_COMM_DUP_FN rvmc_dup_attribute
#define MPI_TYPE_NULL_COPY_FN ((MPI_Type_copy_attr_function *)0)
#define MPI_TYPE_NULL_DELETE_FN ((MPI_Type_delete_attr_function *)0)
#define MPI_TYPE_DUP_FN rvmc_dup_attribute

/* The datatypes (3.2.2, 6.9.4). A datatype is its number here, its kind, and its size in the lowest byte; a pair's size is
   its extent. What a reduction does goes by kind and size alone. lib/datatypes.c has the names. */
enum {
    RVMC_SIGNED = 1, RVMC_UNSIGNED, RVMC_BYTES, RVMC_TRUTH, RVMC_FLOATING, RVMC_COMPLEX,
    RVMC_FLOATING_PAIR, RVMC_OPAQUE, RVMC_SIGNED_PAIR, RVMC_TWO_SIGNED, RVMC_TWO_FLOATING, RVMC_DERIVED, RVMC_MARK
};
#define RVMC_TYPE(number, kind, size) ((number) << 16 | (kind) << 8 | (size))
/* One that a program made has no size here, and a number of its own with a bit that no basic one has. */
#define RVMC_MADE_SIGN 128
#define RVMC_MADE(place) RVMC_TYPE(((place) << 1 & ~255) | RVMC_MADE_SIGN | ((place) & 127), RVMC_DERIVED, 0)
#define RVMC_MADE_PLACE(type) (((type) >> 17 & ~127) | ((type) >> 16 & 127))
#define RVMC_SIZE_OF(type) ((type) & 255)
#define RVMC_KIND_OF(type) ((type) >> 8 & 255)
#define RVMC_SHAPE_OF(type) ((type) & 65535)

#define MPI_DATATYPE_NULL 0
#define MPI_CHAR RVMC_TYPE(1, 1, 1)
#define MPI_SIGNED_CHAR RVMC_TYPE(2, 1, 1)
#define MPI_UNSIGNED_CHAR RVMC_TYPE(3, 2, 1)
#define MPI_BYTE RVMC_TYPE(4, 3, 1)
#define MPI_WCHAR RVMC_TYPE(5, 8, 4)
#define MPI_SHORT RVMC_TYPE(6, 1, 2)
#define MPI_UNSIGNED_SHORT RVMC_TYPE(7, 2, 2)
#define MPI_INT RVMC_TYPE(8, 1, 4)
#define MPI_UNSIGNED RVMC_TYPE(9, 2, 4)
#define MPI_LONG RVMC_TYPE(10, 1, 8)
#define MPI_UNSIGNED_LONG RVMC_TYPE(11, 2, 8)
#define MPI_LONG_LONG_INT RVMC_TYPE(12, 1, 8)
#define MPI_LONG_LONG MPI_LONG_LONG_INT
#define MPI_UNSIGNED_LONG_LONG RVMC_TYPE(13, 2, 8)
#define MPI_FLOAT RVMC_TYPE(14, 5, 4)
#define MPI_DOUBLE RVMC_TYPE(15, 5, 8)
#define MPI_LONG_DOUBLE RVMC_TYPE(16, 5, 16)
#define MPI_PACKED RVMC_TYPE(17, 8, 1)
#define MPI_INT8_T RVMC_TYPE(18, 1, 1)
#define MPI_INT16_T RVMC_TYPE(19, 1, 2)
#define MPI_INT32_T RVMC_TYPE(20, 1, 4)
#define MPI_INT64_T RVMC_TYPE(21, 1, 8)
#define MPI_UINT8_T RVMC_TYPE(22, 2, 1)
#define MPI_UINT16_T RVMC_TYPE(23, 2, 2)
#define MPI_UINT32_T RVMC_TYPE(24, 2, 4)
#define MPI_UINT64_T RVMC_TYPE(25, 2, 8)
#define MPI_C_BOOL RVMC_TYPE(26, 4, 1)
#define MPI_C_FLOAT_COMPLEX RVMC_TYPE(27, 6, 8)
#define MPI_C_COMPLEX MPI_C_FLOAT_COMPLEX
#define MPI_C_DOUBLE_COMPLEX RVMC_TYPE(28, 6, 16)
#define MPI_C_LONG_DOUBLE_COMPLEX RVMC_TYPE(29, 6, 32)
#define MPI_AINT RVMC_TYPE(30, 1, 8)
#define MPI_OFFSET RVMC_TYPE(31, 1, 8)
#define MPI_COUNT RVMC_TYPE(32, 1, 8)
#define MPI_FLOAT_INT RVMC_TYPE(33, 7, 8)
#define MPI_DOUBLE_INT RVMC_TYPE(34, 7, 16)
#define MPI_LONG_INT RVMC_TYPE(35, 9, 16)
#define MPI_SHORT_INT RVMC_TYPE(36, 9, 8)
#define MPI_2INT RVMC_TYPE(37, 10, 8)
#define MPI_LONG_DOUBLE_INT RVMC_TYPE(38, 7, 32)
/* Those of C++, which C has too. */
#define MPI_CXX_BOOL MPI_C_BOOL
#define MPI_CXX_FLOAT_COMPLEX MPI_C_FLOAT_COMPLEX
#define MPI_CXX_DOUBLE_COMPLEX MPI_C_DOUBLE_COMPLEX
#define MPI_CXX_LONG_DOUBLE_COMPLEX MPI_C_LONG_DOUBLE_COMPLEX
/* Fortran's, which some C programs name. */
#define MPI_CHARACTER RVMC_TYPE(39, 1, 1)
#define MPI_LOGICAL RVMC_TYPE(40, 4, 4)
#define MPI_INTEGER RVMC_TYPE(41, 1, 4)
#define MPI_REAL RVMC_TYPE(42, 5, 4)
#define MPI_DOUBLE_PRECISION RVMC_TYPE(43, 5, 8)
#define MPI_COMPLEX RVMC_TYPE(44, 6, 8)
#define MPI_DOUBLE_COMPLEX RVMC_TYPE(45, 6, 16)
#define MPI_INTEGER1 RVMC_TYPE(46, 1, 1)
#define MPI_INTEGER2 RVMC_TYPE(47, 1, 2)
#define MPI_INTEGER4 RVMC_TYPE(48, 1, 4)
#define MPI_INTEGER8 RVMC_TYPE(49, 1, 8)
#define MPI_REAL4 RVMC_TYPE(50, 5, 4)
#define MPI_REAL8 RVMC_TYPE(51, 5, 8)
#define MPI_REAL16 RVMC_TYPE(55, 5, 16)
#define MPI_COMPLEX8 RVMC_TYPE(56, 6, 8)
#define MPI_COMPLEX16 RVMC_TYPE(57, 6, 16)
#define MPI_TYPECLASS_REAL 1
#define MPI_TYPECLASS_INTEGER 2
#define MPI_TYPECLASS_COMPLEX 3
#define MPI_2INTEGER RVMC_TYPE(52, 10, 8)
#define MPI_2REAL RVMC_TYPE(53, 11, 8)
#define MPI_2DOUBLE_PRECISION RVMC_TYPE(54, 11, 16)
/* The bounds of MPI_Type_struct, which have no bytes. */
#define MPI_LB RVMC_TYPE(1, RVMC_MARK, 0)
#define MPI_UB RVMC_TYPE(2, RVMC_MARK, 0)

/* How a datatype was made (5.1.13), and the arguments of arrays (5.1.3, 5.1.4). */
#define MPI_COMBINER_NAMED 1
#define MPI_COMBINER_DUP 2
#define MPI_COMBINER_CONTIGUOUS 3
#define MPI_COMBINER_VECTOR 4
#define MPI_COMBINER_HVECTOR_INTEGER 5
#define MPI_COMBINER_HVECTOR 6
#define MPI_COMBINER_INDEXED 7
#define MPI_COMBINER_HINDEXED_INTEGER 8
#define MPI_COMBINER_HINDEXED 9
#define MPI_COMBINER_INDEXED_BLOCK 10
#define MPI_COMBINER_STRUCT_INTEGER 11
#define MPI_COMBINER_STRUCT 12
#define MPI_COMBINER_SUBARRAY 13
#define MPI_COMBINER_DARRAY 14
#define MPI_COMBINER_F90_REAL 15
#define MPI_COMBINER_F90_COMPLEX 16
#define MPI_COMBINER_F90_INTEGER 17
#define MPI_COMBINER_RESIZED 18
#define MPI_COMBINER_HINDEXED_BLOCK 19
#define MPI_ORDER_C 56
#define MPI_ORDER_FORTRAN 57
#define MPI_DISTRIBUTE_BLOCK 121
#define MPI_DISTRIBUTE_CYCLIC 122
#define MPI_DISTRIBUTE_NONE 123
#define MPI_DISTRIBUTE_DFLT_DARG (-49767)

/* The operations (6.9.2). Those of a program's own have the numbers behind them. */
#define MPI_OP_NULL 0
#define MPI_MAX 1
#define MPI_MIN 2
#define MPI_SUM 3
#define MPI_PROD 4
#define MPI_LAND 5
#define MPI_BAND 6
#define MPI_LOR 7
#define MPI_BOR 8
#define MPI_LXOR 9
#define MPI_BXOR 10
#define MPI_MINLOC 11
#define MPI_MAXLOC 12
#define RVMC_OWN_OPS 16

/* Error classes (9.4). A code is its class, but for those that a program adds. */
#define MPI_SUCCESS 0
#define MPI_ERR_BUFFER 1
#define MPI_ERR_COUNT 2
#define MPI_ERR_TYPE 3
#define MPI_ERR_TAG 4
#define MPI_ERR_COMM 5
#define MPI_ERR_RANK 6
#define MPI_ERR_ROOT 7
#define MPI_ERR_GROUP 8
#define MPI_ERR_OP 9
#define MPI_ERR_TOPOLOGY 10
#define MPI_ERR_DIMS 11
#define MPI_ERR_ARG 12
#define MPI_ERR_UNKNOWN 13
#define MPI_ERR_TRUNCATE 14
#define MPI_ERR_OTHER 15
#define MPI_ERR_INTERN 16
#define MPI_ERR_IN_STATUS 17
#define MPI_ERR_PENDING 18
#define MPI_ERR_REQUEST 19
#define MPI_ERR_ACCESS 20
#define MPI_ERR_AMODE 21
#define MPI_ERR_BAD_FILE 22
#define MPI_ERR_CONVERSION 23
#define MPI_ERR_DUP_DATAREP 24
#define MPI_ERR_FILE_EXISTS 25
#define MPI_ERR_FILE_IN_USE 26
#define MPI_ERR_FILE 27
#define MPI_ERR_INFO 28
#define MPI_ERR_INFO_KEY 29
#define MPI_ERR_INFO_VALUE 30
#define MPI_ERR_INFO_NOKEY 31
#define MPI_ERR_IO 32
#define MPI_ERR_NAME 33
#define MPI_ERR_NO_MEM 34
#define MPI_ERR_NOT_SAME 35
#define MPI_ERR_NO_SPACE 36
#define MPI_ERR_NO_SUCH_FILE 37
#define MPI_ERR_PORT 38
#define MPI_ERR_QUOTA 39
#define MPI_ERR_READ_ONLY 40
#define MPI_ERR_SERVICE 41
#define MPI_ERR_SPAWN 42
#define MPI_ERR_UNSUPPORTED_DATAREP 43
#define MPI_ERR_UNSUPPORTED_OPERATION 44
#define MPI_ERR_WIN 45
#define MPI_ERR_BASE 46
#define MPI_ERR_LOCKTYPE 47
#define MPI_ERR_KEYVAL 48
#define MPI_ERR_RMA_CONFLICT 49
#define MPI_ERR_RMA_SYNC 50
#define MPI_ERR_SIZE 51
#define MPI_ERR_DISP 52
#define MPI_ERR_ASSERT 53
#define MPI_ERR_RMA_RANGE 55
#define MPI_ERR_RMA_ATTACH 56
#define MPI_ERR_RMA_SHARED 57
#define MPI_ERR_RMA_FLAVOR 58
#define MPI_ERR_SESSION 75
#define MPI_ERR_PROC_ABORTED 76
#define MPI_ERR_VALUE_TOO_LARGE 77
#define MPI_ERR_ERRHANDLER 78
#define MPI_ERR_LASTCODE 0x3fffffff

/* Fortran's handles are the same numbers. */
#define MPI_Comm_c2f(c) ((MPI_Fint)(c))
#define MPI_Comm_f2c(c) ((MPI_Comm)(c))
#define MPI_Group_c2f(group) ((MPI_Fint)(group))
#define MPI_Group_f2c(group) ((MPI_Group)(group))
#define MPI_Type_c2f(type) ((MPI_Fint)(type))
#define MPI_Type_f2c(type) ((MPI_Datatype)(type))
#define MPI_Op_c2f(op) ((MPI_Fint)(op))
#define MPI_Op_f2c(op) ((MPI_Op)(op))
#define MPI_Info_c2f(info) ((MPI_Fint)(info))
#define MPI_Info_f2c(info) ((MPI_Info)(info))
#define MPI_Errhandler_c2f(handler) ((MPI_Fint)(handler))
#define MPI_Errhandler_f2c(handler) ((MPI_Errhandler)(handler))
#define MPI_Request_c2f(request) ((MPI_Fint)(request))
#define MPI_Request_f2c(request) ((MPI_Request)(request))

#endif
