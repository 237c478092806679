#include <fcntl.h>
#include <stdio.h>
#include <unistd.h>

int main(void)
{
    char letter;
    int file = open("letters.txt", O_RDONLY);

    if (file < 0)
        return 1;
    read(file, &letter, 1);
    printf("%c\n", letter);
    return 0;
}
