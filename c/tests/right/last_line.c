/* Reads lines, of which the last one has no newline, and flushes all streams. */
#include <stdio.h>
#include <string.h>

int main(void)
{
    char line[8];

    printf("lines:");
    fflush(NULL);
    while (fgets(line, sizeof(line), stdin) != NULL) {
        line[strcspn(line, "\n")] = 0;
        printf(" '%s'", line);
    }
    printf("%s\n", feof(stdin) ? "" : " not the end");
    return 0;
}
