/* Gives a block back twice, or one that malloc didn't give. */
#include <stdlib.h>

int main(int argc, char **argv)
{
    char *block = malloc(100), *other = malloc(100), local[10];

    free(block);
    free(argc > 1 ? argv[1][0] == '1' ? block : argv[1][0] == '2' ? other + 16 : local : other);
    return 0;
}
