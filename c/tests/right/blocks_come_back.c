/* A rank works on one block after the other, of sizes up to most of its heap, and gives each back. All of them together
   are many times its memory. */
#include <stdio.h>
#include <stdlib.h>

int main(void)
{
    int blocks = 0;
    char *text = NULL;

    for (size_t size = 16; size <= 600000; size = size * 3 / 2)
        for (int i = 0; i < 60; i++) {
            char *block = i % 3 == 2 ? calloc(size, 1) : malloc(size);

            if (block) {
                block[size - 1] = 1;
                blocks++;
            }
            free(block);
        }
    for (int i = 0; i < 40; i++) {
        text = realloc(text, i % 2 ? 1000 : 500000);
        if (text)
            blocks++;
    }
    free(text);
    printf("%d blocks\n", blocks);
    return 0;
}
