/* Measures a text that nobody has set, and copies it. */
#include <stdio.h>
#include <string.h>

int main(void)
{
    char *volatile name = NULL;
    char room[16];

    printf("%d letters\n", (int)strlen(name));
    puts(strcpy(room, name));
    return 0;
}
