/* Checks the files that are named and prints a number for each. Without a file: that no bytes at all are a bad bundle. */
#include <stdio.h>
#include <stdlib.h>

#include "tt_check.h"

/* The bytes of a file; the program ends if they cannot be read. */
static uint8_t *contents(const char *name, size_t *len) {
    FILE *file = fopen(name, "rb");
    uint8_t *bytes = malloc(1 << 20);
    if (file == NULL || bytes == NULL) {
        perror(name);
        exit(2);
    }
    *len = fread(bytes, 1, 1 << 20, file);
    fclose(file);
    return bytes;
}

int main(int argc, char **argv) {
    if (argc == 1) {
        uint8_t none = 0;
        printf("%u\n", (unsigned)tt_check_bundle(&none, 0));
    }
    for (int i = 1; i < argc; i++) {
        size_t len;
        uint8_t *bytes = contents(argv[i], &len);
        printf("%u\n", (unsigned)tt_check_bundle(bytes, len));
        free(bytes);
    }
    return 0;
}
