/* Saves all bytes and some numbers, and reads them again. */
#include <stdio.h>

int main(void)
{
    double numbers[3] = {0.5, -2, 1e100}, number;
    FILE *file = fopen("bytes.bin", "wb");

    for (int byte = 0; byte < 256; byte++)
        fputc(byte, file);
    fclose(file);
    file = fopen("numbers.bin", "wb");
    printf("%d numbers\n", (int)fwrite(numbers, sizeof(double), 3, file));
    fclose(file);
    file = fopen("numbers.bin", "rb");
    fseek(file, 2 * sizeof(double), SEEK_SET);
    printf("%d: ", (int)fread(&number, sizeof(number), 1, file));
    printf("%s\n", number == 1e100 ? "the third" : "another");
    printf("%d: ", (int)fread(&number, sizeof(number), 1, file));
    printf("%s\n", feof(file) ? "the end" : "more");
    fclose(file);
    return 0;
}
