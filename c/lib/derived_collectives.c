/* derived_collectives.c: the collectives for datatypes that a program makes (derived_calls.h). */
#ifndef __clang__
#pragma GCC optimize("Os")
#endif
#define RVMC_OF_DERIVED
#include "derived_calls.h"
#include "collectives.c"
