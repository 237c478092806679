/* Names of objects: those that MPI gives, and those that a program gives.

   c/rvmc-cc -n 2 -o names.image c/programs/names.c && rvmc run < names.image */
#include <mpi.h>
#include <stdio.h>
#include <string.h>

static void show_type(MPI_Datatype type)
{
    char name[MPI_MAX_OBJECT_NAME];
    int length = -1;

    MPI_Type_get_name(type, name, &length);
    printf("%s, %s\n", name, length == (int)strlen(name) ? "of its length" : "WRONG");
}

int main(int argc, char *argv[])
{
    int rank, length;
    char name[MPI_MAX_OBJECT_NAME], own[32];

    MPI_Init(&argc, &argv);
    MPI_Comm_rank(MPI_COMM_WORLD, &rank);
    MPI_Comm_get_name(MPI_COMM_WORLD, name, &length);
    printf("%s %d\n", name, length);
    snprintf(own, sizeof(own), "everybody, says rank %d", rank);
    MPI_Comm_set_name(MPI_COMM_WORLD, own);
    memset(own, 'x', sizeof(own) - 1);              /* MPI keeps a copy */
    MPI_Comm_get_name(MPI_COMM_WORLD, name, &length);
    printf("%s %d\n", name, length);
    MPI_Comm_set_name(MPI_COMM_WORLD, "");
    MPI_Comm_get_name(MPI_COMM_WORLD, name, &length);
    printf("'%s' %d\n", name, length);

    show_type(MPI_INT);
    show_type(MPI_CHAR);
    show_type(MPI_UNSIGNED_LONG_LONG);
    show_type(MPI_DOUBLE);
    show_type(MPI_BYTE);
    show_type(MPI_LONG_DOUBLE);
    show_type(MPI_2INT);
    show_type(MPI_DOUBLE_INT);
    show_type(MPI_C_BOOL);
    show_type(MPI_UINT8_T);
    MPI_Type_set_name(MPI_SHORT, "small");
    show_type(MPI_SHORT);
    MPI_Finalize();
    return 0;
}
