/* printing.c: what is printed goes out a line at a time, whatever it was put together from, and a line of more than 4,096
   bytes in parts. One rank. */
#include <mpi.h>
#include <stdio.h>

int main(int argc, char **argv)
{
    MPI_Init(&argc, &argv);
    printf("a %d ", 17);
    printf("line of %s\n", "three parts");
    putchar('b');
    fputs("c\nde", stdout);
    fprintf(stderr, "f\n");
    printf("flushed");
    fflush(stdout);
    printf("\n%*d\n", 5000, 1);
    printf("%.2f and %5.1e\n", 1.25, 31415.0);
    puts("");
    MPI_Finalize();
    printf("no newline");
    return 0;
}
