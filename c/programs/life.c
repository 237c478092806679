/* The game of life on a torus. Rank 0 reads the first generation from its standard input, and the rows are dealt out by
   MPI_Scatterv, since the ranks may have unequal shares of them.

   c/rvmc-cc -n 3 --arg 6 --stdin c/programs/life.txt -o life.image c/programs/life.c && rvmc run < life.image */
#include <mpi.h>
#include <stdio.h>
#include <stdlib.h>
#include <string.h>

#define HEIGHT 10
#define WIDTH 16

static void read_world(char world[HEIGHT][WIDTH])
{
    char line[128];

    memset(world, '.', HEIGHT * WIDTH);
    for (int row = 0; row < HEIGHT && fgets(line, sizeof(line), stdin) != NULL; row++)
        for (int column = 0; column < WIDTH && line[column] != '\n' && line[column] != '\0'; column++)
            world[row][column] = line[column];
}

static char next_state(char (*rows)[WIDTH], int row, int column)
{
    int neighbours = 0;

    for (int i = -1; i <= 1; i++)
        for (int j = -1; j <= 1; j++)
            if ((i != 0 || j != 0) && rows[row + i][(column + j + WIDTH) % WIDTH] == '#')
                neighbours++;
    return neighbours == 3 || (neighbours == 2 && rows[row][column] == '#') ? '#' : '.';
}

int main(int argc, char *argv[])
{
    int rank, size, generations, rows, above, below;
    int *counts, *places;
    char world[HEIGHT][WIDTH];
    char (*now)[WIDTH], (*next)[WIDTH];
    MPI_Request requests[4];

    MPI_Init(&argc, &argv);
    MPI_Comm_rank(MPI_COMM_WORLD, &rank);
    MPI_Comm_size(MPI_COMM_WORLD, &size);
    generations = argc > 1 ? atoi(argv[1]) : 1;
    counts = malloc(size * sizeof(int));
    places = malloc(size * sizeof(int));
    for (int r = 0; r < size; r++) {
        int from = HEIGHT * r / size, to = HEIGHT * (r + 1) / size;

        counts[r] = (to - from) * WIDTH;
        places[r] = from * WIDTH;
    }
    rows = counts[rank] / WIDTH;
    above = (rank + size - 1) % size;
    below = (rank + 1) % size;
    now = calloc(rows + 2, WIDTH);
    next = calloc(rows + 2, WIDTH);

    if (rank == 0)
        read_world(world);
    MPI_Scatterv(world, counts, places, MPI_CHAR, now[1], counts[rank], MPI_CHAR, 0, MPI_COMM_WORLD);
    for (int g = 0; g < generations; g++) {
        MPI_Irecv(now[0], WIDTH, MPI_CHAR, above, 1, MPI_COMM_WORLD, &requests[0]);
        MPI_Irecv(now[rows + 1], WIDTH, MPI_CHAR, below, 2, MPI_COMM_WORLD, &requests[1]);
        MPI_Isend(now[rows], WIDTH, MPI_CHAR, below, 1, MPI_COMM_WORLD, &requests[2]);
        MPI_Isend(now[1], WIDTH, MPI_CHAR, above, 2, MPI_COMM_WORLD, &requests[3]);
        MPI_Waitall(4, requests, MPI_STATUSES_IGNORE);
        for (int row = 1; row <= rows; row++)
            for (int column = 0; column < WIDTH; column++)
                next[row][column] = next_state(now, row, column);
        memcpy(now[1], next[1], rows * WIDTH);
    }
    MPI_Gatherv(now[1], counts[rank], MPI_CHAR, world, counts, places, MPI_CHAR, 0, MPI_COMM_WORLD);
    if (rank == 0)
        for (int row = 0; row < HEIGHT; row++)
            printf("%.*s\n", WIDTH, world[row]);
    free(now);
    free(next);
    free(counts);
    free(places);
    MPI_Finalize();
    return 0;
}
