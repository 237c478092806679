/* match_size.c: the datatype of a kind of Fortran's numbers with so many bytes (MPI 4.1, 19.1.5). */
#include "../mpi.h"
#include "errors.h"

int MPI_Type_match_size(int type_class, int size, MPI_Datatype *type)
{
    static const MPI_Datatype known[][5] = {
        [MPI_TYPECLASS_REAL] = {MPI_REAL4, MPI_REAL8, MPI_REAL16},
        [MPI_TYPECLASS_INTEGER] = {MPI_INTEGER1, MPI_INTEGER2, MPI_INTEGER4, MPI_INTEGER8},
        [MPI_TYPECLASS_COMPLEX] = {MPI_COMPLEX8, MPI_COMPLEX16},
    };
    int is_class = type_class >= MPI_TYPECLASS_REAL && type_class <= MPI_TYPECLASS_COMPLEX;

    for (const MPI_Datatype *one = known[is_class ? type_class : 0]; *one; one++)
        if (RVMC_SIZE_OF(*one) == size) {
            *type = *one;
            return MPI_SUCCESS;
        }
    *type = MPI_DATATYPE_NULL;
    if (!is_class)
        return rvmc_trapped(rvmc_raise("MPI_Type_match_size", MPI_COMM_WORLD, MPI_ERR_ARG, "typeclass",
                                       "%d is no class of datatypes", (long)type_class));
    return rvmc_trapped(rvmc_raise("MPI_Type_match_size", MPI_COMM_WORLD, MPI_ERR_ARG, "size",
                                   "no datatype of this class has %d bytes", (long)size));
}
