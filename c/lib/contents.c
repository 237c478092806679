/* contents.c: what a datatype was made with (MPI 4.1, 5.1.13). */
#include "../mpi.h"
#include "errors.h"
#include "layouts.h"

int MPI_Type_get_envelope(MPI_Datatype type, int *integers, int *addresses, int *types, int *combiner)
{
    struct rvmc_layout *l = rvmc_layout_of(type);
    int error = rvmc_check_type("MPI_Type_get_envelope", "datatype", type, 0);

    if (error)
        return error;
    *integers = l ? l->contents.integers : 0;
    *addresses = l ? l->contents.addresses : 0;
    *types = l ? l->contents.types : 0;
    *combiner = l ? l->contents.combiner : MPI_COMBINER_NAMED;
    return MPI_SUCCESS;
}

/* The datatypes are given back by handles of their own, which the program frees but for basic ones. */
int MPI_Type_get_contents(MPI_Datatype type, int integers, int addresses, int types, int integer[], MPI_Aint address[],
                          MPI_Datatype types_given[])
{
    static const char call[] = "MPI_Type_get_contents";
    struct rvmc_layout *l = rvmc_layout_of(type), *given;
    int error = rvmc_check_type(call, "datatype", type, 0);

    if (error)
        return error;
    if (!l)
        return rvmc_trapped(rvmc_raise(call, MPI_COMM_WORLD, MPI_ERR_TYPE, "datatype", "a basic datatype wasn't made of others"));
    error = rvmc_check_argument(call, "max_integers", integers >= l->contents.integers, integers);
    error = error ? error : rvmc_check_argument(call, "max_addresses", addresses >= l->contents.addresses, addresses);
    error = error ? error : rvmc_check_argument(call, "max_datatypes", types >= l->contents.types, types);
    if (error)
        return error;
    for (int i = 0; i < l->contents.integers; i++)
        integer[i] = l->contents.integer[i];
    for (int i = 0; i < l->contents.addresses; i++)
        address[i] = l->contents.address[i];
    for (int i = 0; i < l->contents.types; i++) {
        types_given[i] = l->contents.type[i];
        given = rvmc_layout_of(types_given[i]);
        if (given) {
            given->handles++;
            given->uses++;
        }
    }
    return MPI_SUCCESS;
}
