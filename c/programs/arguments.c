/* The arguments of the program, the same for all ranks.

   c/rvmc-cc -n 2 --arg -v --arg 12 --arg 'two words' --arg '' -o arguments.image c/programs/arguments.c && \
       rvmc run < arguments.image */
#include <mpi.h>
#include <stdio.h>
#include <stdlib.h>
#include <string.h>

int main(int argc, char *argv[])
{
    int rank, number = 0;

    MPI_Init(&argc, &argv);
    MPI_Comm_rank(MPI_COMM_WORLD, &rank);
    printf("rank %d has %d arguments, and argv[0] %s\n", rank, argc - 1, argv[0] && argv[0][0] ? "has a name" : "is empty");
    for (int i = 1; i < argc; i++)
        printf("%d: '%s' of %d characters\n", i, argv[i], (int)strlen(argv[i]));
    printf("argv[argc] is %s\n", argv[argc] == NULL ? "null" : "WRONG");
    if (argc > 2 && strcmp(argv[1], "-v") == 0)
        number = atoi(argv[2]) * (rank + 1);
    MPI_Allreduce(MPI_IN_PLACE, &number, 1, MPI_INT, MPI_SUM, MPI_COMM_WORLD);
    printf("together: %d\n", number);
    MPI_Finalize();
    return 0;
}
