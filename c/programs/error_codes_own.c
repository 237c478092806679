/* Error classes, codes and texts of the program's own.

   c/rvmc-cc -n 1 -o error_codes_own.image c/programs/error_codes_own.c && rvmc run < error_codes_own.image */
#include <mpi.h>
#include <stdio.h>
#include <string.h>

static void handle(MPI_Comm *comm, int *code, ...)
{
    char text[MPI_MAX_ERROR_STRING];
    int length;

    (void)comm;
    MPI_Error_string(*code, text, &length);
    printf("the handler: '%s' %d\n", text, length);
}

int main(int argc, char *argv[])
{
    int class, other, code, found, length, *last, flag;
    char text[MPI_MAX_ERROR_STRING];
    MPI_Errhandler handler;

    MPI_Init(&argc, &argv);
    MPI_Add_error_class(&class);
    MPI_Add_error_class(&other);
    MPI_Add_error_code(class, &code);
    printf("new: %s\n", class > MPI_ERR_LASTCODE && other != class && code != class && code != other ? "different" : "WRONG");
    MPI_Comm_get_attr(MPI_COMM_WORLD, MPI_LASTUSEDCODE, &last, &flag);
    printf("the last code: %s\n", flag && *last >= class && *last >= other ? "not below the classes" : "WRONG");
    MPI_Error_class(code, &found);
    printf("the code's class: %s\n", found == class ? "the first" : "WRONG");
    MPI_Error_class(other, &found);
    printf("a class is its own: %s\n", found == other ? "yes" : "WRONG");
    MPI_Error_string(code, text, &length);
    printf("no text yet: %d\n", length);
    MPI_Add_error_string(class, "the files are full");
    MPI_Add_error_string(code, "the first file is full");
    MPI_Error_string(class, text, &length);
    printf("'%s' %d\n", text, length);
    MPI_Error_string(code, text, &length);
    printf("'%s' %d\n", text, length);
    MPI_Add_error_string(code, "full");
    MPI_Error_string(code, text, &length);
    printf("'%s' %d\n", text, length);
    MPI_Comm_create_errhandler(handle, &handler);
    MPI_Comm_set_errhandler(MPI_COMM_WORLD, handler);
    MPI_Comm_call_errhandler(MPI_COMM_WORLD, code);
    MPI_Comm_call_errhandler(MPI_COMM_WORLD, class);
    MPI_Errhandler_free(&handler);
    MPI_Finalize();
    return 0;
}
