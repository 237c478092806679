/* Asks for the length of a text that was never allocated. */
#include <stdio.h>
#include <string.h>

struct person {
    const char *name;
    int age;
};

static size_t widest(const struct person *people, int count)
{
    size_t most = 0;
    for (int k = 0; k < count; k++) {
        size_t length = strlen(people[k].name);
        if (length > most)
            most = length;
    }
    return most;
}

int main(void)
{
    struct person people[2] = {{"Ada", 36}, {(const char *)0x7fffff00, 41}};
    printf("%zu\n", widest(people, 2));
    return 0;
}
