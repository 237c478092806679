/* Rank 0 reads numbers from the standard input and deals them out.

   c/rvmc-cc -n 3 --stdin c/programs/numbers.txt -o standard_input.image c/programs/standard_input.c && \
       rvmc run < standard_input.image */
#include <mpi.h>
#include <stdio.h>

int main(int argc, char *argv[])
{
    int rank, size, count = 0, numbers[16], mine, sum, c;
    char word[32] = "", line[64] = "";

    MPI_Init(&argc, &argv);
    MPI_Comm_rank(MPI_COMM_WORLD, &rank);
    MPI_Comm_size(MPI_COMM_WORLD, &size);
    if (rank == 0) {
        if (scanf("%31s %d", word, &count) != 2)
            MPI_Abort(MPI_COMM_WORLD, 1);
        for (int i = 0; i < count; i++)
            if (scanf("%d", &numbers[i]) != 1)
                MPI_Abort(MPI_COMM_WORLD, 2);
        while ((c = getchar()) != EOF && c != '\n')
            ;
        if (fgets(line, sizeof(line), stdin) != NULL)
            printf("the line behind the numbers: %s", line);
        printf("%s: %d; then %s\n", word, count, getchar() == EOF && feof(stdin) ? "the end" : "WRONG");
    }
    MPI_Bcast(&count, 1, MPI_INT, 0, MPI_COMM_WORLD);
    MPI_Bcast(numbers, count, MPI_INT, 0, MPI_COMM_WORLD);
    mine = 0;
    for (int i = rank; i < count; i += size)
        mine += numbers[i];
    MPI_Reduce(&mine, &sum, 1, MPI_INT, MPI_SUM, 0, MPI_COMM_WORLD);
    printf("rank %d adds up %d\n", rank, mine);
    if (rank == 0)
        printf("together %d\n", sum);
    MPI_Finalize();
    return 0;
}
