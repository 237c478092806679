/* Makes files of the sizes that it is given. */
#include <fcntl.h>
#include <stdio.h>
#include <stdlib.h>
#include <unistd.h>

int main(int argc, char *argv[])
{
    char name[20];

    for (int i = 1; i < argc; i++) {
        int file;

        snprintf(name, sizeof(name), "file%d", i);
        file = open(name, O_CREAT | O_WRONLY, 0644);
        if (ftruncate(file, atoi(argv[i])) != 0)
            perror(name);
        close(file);
    }
    return 0;
}
