/* mpitestconf.h: what MPICH's tests ask of their configuration, for c/tests/corpus. */
#ifndef CORPUS_MPITESTCONF_H
#define CORPUS_MPITESTCONF_H
#define STDC_HEADERS 1
#define HAVE_STDLIB_H 1
#define HAVE_STRING_H 1
#define HAVE_STDINT_H 1
#define HAVE_UNISTD_H 1
#define HAVE_SYS_TIME_H 1
#define HAVE_LONG_LONG 1
#define HAVE_LONG_DOUBLE 1
#define HAVE__BOOL 1
#define HAVE_FLOAT__COMPLEX 1
#define HAVE_DOUBLE__COMPLEX 1
#define HAVE_LONG_DOUBLE__COMPLEX 1
#define HAVE_MPI_TYPE_CREATE_STRUCT 1
#endif
