/* Reads numbers out of texts of which one is missing. */
#include <stdio.h>
#include <stdlib.h>

static long total(char **texts, int count)
{
    long sum = 0;
    for (int k = 0; k < count; k++)
        sum += strtol(texts[k], NULL, 10);
    return sum;
}

int main(void)
{
    char *texts[3] = {"12", "-7", (char *)0x12345678};
    printf("%ld\n", total(texts, 3));
    return 0;
}
