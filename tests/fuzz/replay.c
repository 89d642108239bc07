/* The fuzzer's inputs once more, without the fuzzer: each file that is named. */
#include <stdint.h>
#include <stdio.h>
#include <stdlib.h>

int LLVMFuzzerTestOneInput(const uint8_t *data, size_t size);

int main(int argc, char **argv)
{
    static uint8_t data[1 << 16];

    for (int k = 1; k < argc; k++) {
        FILE *file = fopen(argv[k], "rb");
        uint8_t *input;
        size_t size;

        if (file == NULL) {
            perror(argv[k]);
            return 1;
        }
        size = fread(data, 1, sizeof data, file);
        fclose(file);
        /* A block of just its size, so that a sanitizer sees its end. */
        input = malloc(size + 1);
        for (size_t i = 0; i < size; i++)
            input[i] = data[i];
        LLVMFuzzerTestOneInput(input, size);
        free(input);
    }
    printf("tests/fuzz: %d inputs alike\n", argc - 1);
    return 0;
}
