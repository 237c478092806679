/* Files by open, read, write and lseek. */
#include <errno.h>
#include <fcntl.h>
#include <stdio.h>
#include <string.h>
#include <sys/stat.h>
#include <unistd.h>

int main(void)
{
    int file = open("data.bin", O_CREAT | O_EXCL | O_RDWR, 0644), again;
    char bytes[20];
    struct stat about;

    printf("wrote %d\n", (int)write(file, "abcdefgh", 8));
    lseek(file, 12, SEEK_SET);
    printf("wrote %d\n", (int)write(file, "Z", 1));
    lseek(file, 6, SEEK_SET);
    printf("read %d:", (int)read(file, bytes, 20));
    for (int i = 0; i < 7; i++)
        printf(" %d", bytes[i]);
    printf("\n");
    ftruncate(file, 3);
    fstat(file, &about);
    printf("%d bytes, at %d\n", (int)about.st_size, (int)lseek(file, 0, SEEK_CUR));
    close(file);

    again = open("data.bin", O_CREAT | O_EXCL | O_RDWR, 0644);
    printf("once more: %s\n", again < 0 ? strerror(errno) : "opened");
    file = open("data.bin", O_WRONLY | O_APPEND);
    write(file, "!", 1);
    printf("read from a file to be written: %s\n", read(file, bytes, 1) < 0 && errno == EBADF ? "EBADF" : "done");
    close(file);
    rename("data.bin", "new.bin");
    printf("old name %d, new name %d\n", access("data.bin", F_OK), access("new.bin", R_OK | W_OK));
    file = open("new.bin", O_RDONLY);
    unlink("new.bin");
    memset(bytes, 0, sizeof(bytes));
    read(file, bytes, sizeof(bytes));
    printf("%s\n", bytes);
    close(file);
    truncate("new.bin", 0);
    printf("%s\n", strerror(errno));
    return 0;
}
