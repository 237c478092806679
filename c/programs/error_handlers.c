/* Error handlers of the program's own: made, set, called by a wrong call and by hand, and taken away again.

   c/rvmc-cc -n 2 -o error_handlers.image c/programs/error_handlers.c && rvmc run < error_handlers.image */
#include <mpi.h>
#include <stdio.h>

static int calls;

static void tell(const char *who, MPI_Comm *comm, int *code)
{
    int class = -1;

    MPI_Error_class(*code, &class);
    calls++;
    printf("%s: %s, of %s\n", who,
           class == MPI_ERR_RANK    ? "no such rank"
           : class == MPI_ERR_COUNT ? "a wrong count"
           : class == MPI_ERR_OTHER ? "another error"
                                    : "UNEXPECTED",
           *comm == MPI_COMM_WORLD ? "the world" : "another");
}

static void first(MPI_Comm *comm, int *code, ...)
{
    tell("first", comm, code);
}

static void second(MPI_Comm *comm, int *code, ...)
{
    tell("second", comm, code);
}

int main(int argc, char *argv[])
{
    int size, number = 0, code;
    MPI_Errhandler one, two, found;

    MPI_Init(&argc, &argv);
    MPI_Comm_size(MPI_COMM_WORLD, &size);
    MPI_Comm_get_errhandler(MPI_COMM_WORLD, &found);
    printf("at first: %s\n", found == MPI_ERRORS_ARE_FATAL ? "errors are fatal" : "WRONG");
    MPI_Comm_create_errhandler(first, &one);
    MPI_Comm_create_errhandler(second, &two);
    MPI_Comm_set_errhandler(MPI_COMM_WORLD, one);
    code = MPI_Send(&number, 1, MPI_INT, size, 0, MPI_COMM_WORLD);
    printf("and the call returns %s\n", code == MPI_SUCCESS ? "WRONG" : "the error");
    MPI_Comm_set_errhandler(MPI_COMM_WORLD, two);
    MPI_Bcast(&number, -1, MPI_INT, 0, MPI_COMM_WORLD);
    MPI_Comm_call_errhandler(MPI_COMM_WORLD, MPI_ERR_OTHER);
    MPI_Comm_get_errhandler(MPI_COMM_WORLD, &found);
    printf("it is %s\n", found == two ? "the second" : found == one ? "WRONG" : "another handle");

    /* freed, it stays as long as the communicator has it */
    MPI_Errhandler_free(&two);
    printf("freed: %s\n", two == MPI_ERRHANDLER_NULL ? "null" : "WRONG");
    MPI_Send(&number, 1, MPI_INT, -17, 0, MPI_COMM_WORLD);
    MPI_Comm_set_errhandler(MPI_COMM_WORLD, MPI_ERRORS_RETURN);
    code = MPI_Send(&number, 1, MPI_INT, size + 1, 0, MPI_COMM_WORLD);
    printf("returned: %s\n", code == MPI_SUCCESS ? "WRONG" : "an error");
    MPI_Comm_get_errhandler(MPI_COMM_WORLD, &found);
    printf("at last: %s\n", found == MPI_ERRORS_RETURN ? "errors return" : "WRONG");
    MPI_Errhandler_free(&one);
    printf("%d calls\n", calls);
    MPI_Finalize();
    return 0;
}
