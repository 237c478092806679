/* Counts the bytes of a file by fread. Its functions have names that POSIX has too. */
#include <mpi.h>
#include <stdio.h>

static int total;

int truncate(int count)
{
    return count > 10 ? 10 : count;
}

int close(int count)
{
    total += count;
    return 0;
}

int main(int argc, char *argv[])
{
    char block[6];
    int count;
    FILE *file;

    MPI_Init(&argc, &argv);
    file = fopen("numbers.txt", "r");
    while ((count = (int)fread(block, 1, sizeof(block), file)) > 0)
        close(count);
    fclose(file);
    printf("%d bytes, %d of them\n", total, truncate(total));
    MPI_Finalize();
    return 0;
}
