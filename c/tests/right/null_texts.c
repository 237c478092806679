/* Each rank gives a null pointer to another function of the C library. */
#include <mpi.h>
#include <stdio.h>
#include <stdlib.h>
#include <string.h>
#include <strings.h>

#ifndef PART
#define PART 0
#endif

static char *volatile none;

static long numbers(int which)
{
    switch (which) {
    case 0: return strtol(none, NULL, 10);
    case 1: return (long)strtoul(none, NULL, 16);
    case 2: return (long)strtoll(none, NULL, 0);
    case 3: return (long)strtod(none, NULL);
    case 4: return atoi(none);
    case 5: return atol(none);
    case 6: return (long)atof(none);
    default: return (long)strtoull(none, NULL, 10);
    }
}

static int compared(int which)
{
    switch (which) {
    case 0: return strcmp(none, "left");
    case 1: return strcmp("right", none);
    case 2: return strncmp("right", none, 2);
    case 3: return strcasecmp(none, "left");
    case 4: return strncasecmp(none, "left", 1);
    case 5: return strcoll(none, "left");
    case 6: return strspn(none, "0123") > 0;
    default: return strcspn("0123", none) > 0;
    }
}

static char *found(int which)
{
    switch (which) {
    case 0: return strchr(none, 'x');
    case 1: return strrchr(none, 'x');
    case 2: return strstr(none, "x");
    case 3: return strstr("x", none);
    case 4: return strpbrk(none, "xyz");
    case 5: return strtok(none, " ");
    case 6: return strdup(none);
    default: return strndup(none, 4);
    }
}

static char *copied(int which, char *room)
{
    switch (which) {
    case 0: return strcpy(room, none);
    case 1: return strcpy(none, room);
    case 2: return strncpy(room, none, 4);
    case 3: return strcat(room, none);
    case 4: return strncat(room, none, 4);
    case 5: return memchr(none, 'x', 4);
    case 6: return getenv(none);
    default: return fgets(room, 8, fopen("missing", "r"));
    }
}

static int printed(int which, char *room)
{
    switch (which) {
    case 0: return puts(none);
    case 1: return fputs(none, stdout);
    case 2: return printf(none);
    case 3: return sprintf(room, none);
    case 4: return snprintf(room, 8, none);
    case 5: return sscanf(none, "%d", &which);
    case 6: return fopen(none, "r") != NULL;
    default: return fprintf(fopen("missing", "w"), "lost\n");
    }
}

/* What is allowed: texts of 0 bytes, the rest of strtok, and what printf makes of a null pointer. */
static int allowed(int which, char *room)
{
    switch (which) {
    case 0: return strncmp(none, "x", 0);
    case 1: return strncpy(room, none, 0) == room;
    case 2: return memchr(none, 'x', 0) == NULL;
    case 3: return strtok(strcpy(room, "a b"), " ")[0] == 'a' && strtok(none, " ")[0] == 'b' && strtok(none, " ") == NULL;
    case 4: return snprintf(none, 0, "%d", 1234);
    case 5: return printf("%s\n", none);
    case 6: return (int)strtol("7", NULL, 10);
    default: return strtok(none, " ") == NULL;
    }
}

int main(int argc, char **argv)
{
    int rank;
    char room[8] = "";

    MPI_Init(&argc, &argv);
    MPI_Comm_rank(MPI_COMM_WORLD, &rank);
    switch (PART) {
    case 0: printf("%ld\n", numbers(rank)); break;
    case 1: printf("%d\n", compared(rank)); break;
    case 2: printf("%d\n", found(rank) != NULL); break;
    case 3: printf("%d\n", copied(rank, room) != NULL); break;
    case 4: printf("%d\n", printed(rank, room)); break;
    default: printf("%d\n", allowed(rank, room));
    }
    MPI_Finalize();
    return 0;
}
