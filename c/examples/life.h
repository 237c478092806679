/* What the four programs of the game of life share: the grid, one generation, and how it begins and is shown.
   They differ in how the edges of the bands go to the neighbours, and have to print the same.

   The grid is a torus. Each rank has a band of its rows, in rows 1 to `rows` of a band_t. Row 0 is a copy of the
   last row of the rank above, row `rows` + 1 one of the first row of the rank below: the halo, which each
   generation needs anew. */
#ifndef LIFE_H
#define LIFE_H
#include <mpi.h>
#include <stdio.h>
#include <string.h>

enum { WIDTH = 24, HEIGHT = 16, GENERATIONS = 10 };

/* the tags: which way a row goes */
enum { UPWARDS = 1, DOWNWARDS = 2 };

typedef char band_t[HEIGHT + 2][WIDTH];

/* a rank's place among the others */
typedef struct {
    int rank, rows, above, below;
} place_t;

static inline place_t life_place(void)
{
    int rank, size;

    MPI_Comm_rank(MPI_COMM_WORLD, &rank);
    MPI_Comm_size(MPI_COMM_WORLD, &size);
    return (place_t){rank, HEIGHT / size, (rank + size - 1) % size, (rank + 1) % size};
}

/* two gliders, one of which leaves the grid at the bottom and comes back at the top; rank 0 has the grid */
static inline void life_begin(place_t at, band_t band)
{
    static char grid[HEIGHT][WIDTH];
    static const char glider[3][4] = {".#.", "..#", "###"};

    if (at.rank == 0) {
        memset(grid, '.', sizeof grid);
        for (int y = 0; y < 3; y++) {
            memcpy(&grid[2 + y][2], glider[y], 3);
            memcpy(&grid[HEIGHT - 3 + y][12], glider[y], 3);
        }
    }
    MPI_Scatter(grid, at.rows * WIDTH, MPI_CHAR, band[1], at.rows * WIDTH, MPI_CHAR, 0, MPI_COMM_WORLD);
}

/* works the next generation of the own rows out, from them and the halo */
static inline void life_step(place_t at, band_t now, band_t next)
{
    for (int y = 1; y <= at.rows; y++)
        for (int x = 0; x < WIDTH; x++) {
            int left = (x + WIDTH - 1) % WIDTH, right = (x + 1) % WIDTH, alive = 0;

            for (int row = y - 1; row <= y + 1; row++)
                alive += (now[row][left] == '#') + (now[row][x] == '#') + (now[row][right] == '#');
            /* `alive` counts the cell itself too */
            next[y][x] = alive == 3 || (alive == 4 && now[y][x] == '#') ? '#' : '.';
        }
}

/* collects the bands at rank 0, which prints the grid */
static inline void life_show(place_t at, band_t band)
{
    static char grid[HEIGHT][WIDTH];

    MPI_Gather(band[1], at.rows * WIDTH, MPI_CHAR, grid, at.rows * WIDTH, MPI_CHAR, 0, MPI_COMM_WORLD);
    if (at.rank == 0)
        for (int y = 0; y < HEIGHT; y++)
            printf("%.*s\n", WIDTH, grid[y]);
}
#endif
