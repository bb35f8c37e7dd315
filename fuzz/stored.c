/* The fuzz target without libFuzzer, over the files that are named: each as it is, cut short anywhere, and with any one bit turned. */
#include <stdint.h>
#include <stdio.h>
#include <stdlib.h>
#include <string.h>

int LLVMFuzzerTestOneInput(const uint8_t *data, size_t size);

static uint8_t octets[65536];

/* The target is given a buffer of just this size, so that a tool that watches memory sees what is read behind it. */
static void give(size_t size) {
    uint8_t *data = malloc(size + (size == 0));
    if (data == NULL)
        exit(1);
    memcpy(data, octets, size);
    LLVMFuzzerTestOneInput(data, size);
    free(data);
}

int main(int argc, char **argv) {
    for (int i = 1; i < argc; i++) {
        FILE *file = fopen(argv[i], "rb");
        if (file == NULL) {
            perror(argv[i]);
            return 1;
        }
        size_t size = fread(octets, 1, sizeof octets, file);
        fclose(file);
        for (size_t n = 0; n <= size; n++)
            give(n);
        for (size_t bit = 0; bit < 8 * size; bit++) {
            octets[bit / 8] ^= (uint8_t)(1 << bit % 8);
            give(size);
            octets[bit / 8] ^= (uint8_t)(1 << bit % 8);
        }
    }
    return 0;
}
