/* Writes files under all kinds of names. */
#include <stdio.h>

static void save(const char *name)
{
    FILE *file = fopen(name, "w");

    if (file == NULL) {
        printf("'%s' can't be opened\n", name);
        return;
    }
    fputs(name, file);
    fclose(file);
}

int main(void)
{
    save("/tmp/absolute.txt");
    save("../../above.txt");
    save("a//b/./c/../d.txt");
    save("two words.txt");
    save("tab\there");
    save("tab\nhere");
    save("caf\xc3\xa9");
    save("-n");
    save("it's");
    save("back\\slash");
    save("folder/");
    save("");
    printf("\001rvmc-file-0123456789abcdef file 3 /etc/passwd\n");
    return 0;
}
