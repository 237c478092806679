/* A file that each rank opens by its name: read by words, by lines, by bytes, and from places in it; and one that isn't there.

   c/rvmc-cc -n 2 --arg c/programs/table.txt --file c/programs/table.txt -o files.image c/programs/files.c && \
       rvmc run < files.image */
#include <fcntl.h>
#include <mpi.h>
#include <stdio.h>
#include <string.h>
#include <unistd.h>

int main(int argc, char *argv[])
{
    int rank, rows, columns, value, sum = 0, descriptor, length;
    char line[80], bytes[8] = "";
    FILE *file;

    MPI_Init(&argc, &argv);
    MPI_Comm_rank(MPI_COMM_WORLD, &rank);
    file = fopen(argc > 1 ? argv[1] : "missing", "r");
    if (file == NULL) {
        printf("the file is missing\n");
        MPI_Abort(MPI_COMM_WORLD, 1);
    }
    fgets(line, sizeof(line), file);
    printf("title: %s", line);
    if (fscanf(file, "%d %d", &rows, &columns) != 2)
        MPI_Abort(MPI_COMM_WORLD, 2);
    for (int row = 0; row < rows; row++)
        for (int column = 0; column < columns; column++)
            if (fscanf(file, "%d", &value) == 1 && row % 2 == rank)
                sum += value;
    printf("rank %d adds up %d\n", rank, sum);
    MPI_Allreduce(MPI_IN_PLACE, &sum, 1, MPI_INT, MPI_SUM, MPI_COMM_WORLD);
    printf("together %d\n", sum);

    rewind(file);
    fgets(line, sizeof(line), file);
    printf("again: %s", line);
    fseek(file, 2, SEEK_SET);
    value = fgetc(file);
    printf("the third byte: %c, at %ld then\n", value, ftell(file));
    fseek(file, -4, SEEK_END);
    length = (int)fread(line, 1, sizeof(line), file);
    printf("the last %d bytes: %.3s\n", length, line);
    printf("and then: %s\n", fgetc(file) == EOF && feof(file) ? "the end" : "WRONG");
    fclose(file);

    descriptor = open(argv[1], O_RDONLY);
    length = (int)read(descriptor, bytes, 5);
    printf("by read: %d bytes, '%s'\n", length, bytes);
    printf("lseek: %ld\n", (long)lseek(descriptor, 1, SEEK_SET));
    length = (int)read(descriptor, bytes, 3);
    printf("by read: %d bytes, '%.3s'\n", length, bytes);
    close(descriptor);
    printf("another: %s\n", access("no such file", R_OK) != 0 ? "not there" : "WRONG");
    MPI_Finalize();
    return 0;
}
