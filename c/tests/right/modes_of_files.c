/* The modes of fopen, one after the other, with what the file then has. */
#include <errno.h>
#include <stdio.h>
#include <string.h>
#include <sys/stat.h>

static void show(const char *name)
{
    char line[80];
    FILE *file = fopen(name, "r");

    while (fgets(line, sizeof(line), file) != NULL)
        printf("| %s", line);
    fclose(file);
}

int main(void)
{
    FILE *file = fopen("list.txt", "w");
    struct stat about;
    char word[20];

    fprintf(file, "one\ntwo\nthree\n");
    printf("w: at %ld\n", ftell(file));
    fclose(file);

    file = fopen("list.txt", "a");
    fprintf(file, "four\n");
    fclose(file);
    show("list.txt");

    file = fopen("list.txt", "r+");
    fseek(file, 4, SEEK_SET);
    fputs("TWO", file);
    rewind(file);
    printf("r+: %s\n", fscanf(file, "%s", word) == 1 ? word : "nothing");
    fclose(file);
    show("list.txt");

    file = fopen("list.txt", "a+");
    fseek(file, -5, SEEK_END);
    printf("a+: %s\n", fscanf(file, "%s", word) == 1 ? word : "nothing");
    fseek(file, 0, SEEK_SET);
    fputs("five\n", file);
    fclose(file);
    stat("list.txt", &about);
    printf("%ld bytes\n", (long)about.st_size);

    file = fopen("list.txt", "w+");
    fputs("new", file);
    rewind(file);
    printf("w+: %s", fgets(word, sizeof(word), file) != NULL ? word : "nothing");
    printf(", then %s\n", fgetc(file) == EOF && feof(file) ? "the end" : "more");
    fclose(file);

    file = fopen("list.txt", "wx");
    printf("wx: %s\n", file == NULL ? strerror(errno) : "opened");
    file = fopen("list.txt", "r");
    printf("written to a file to be read: %d\n", fputs("no", file));
    fclose(file);
    remove("list.txt");
    printf("removed: %s\n", fopen("list.txt", "r") == NULL ? strerror(errno) : "still there");
    return 0;
}
