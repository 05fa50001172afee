/* Runs the fuzz target on files, where there is no libFuzzer: replay FILE... */
#include "target.h"
#include <stdio.h>
#include <stdlib.h>

static uint8_t *contents(const char *path, size_t *n)
{
    FILE *file = fopen(path, "rb");
    uint8_t *octets = NULL;
    size_t room = 0, got;

    *n = 0;
    if (file == NULL) {
        perror(path);
        exit(2);
    }
    do {
        room += 65536;
        octets = realloc(octets, room);
        if (octets == NULL)
            exit(2);
        got = fread(octets + *n, 1, room - *n, file);
        *n += got;
    } while (got > 0);
    if (ferror(file)) {
        perror(path);
        exit(2);
    }
    fclose(file);
    return octets;
}

int main(int argc, char **argv)
{
    int i;

    for (i = 1; i < argc; i++) {
        size_t n;
        uint8_t *octets = contents(argv[i], &n);

        input_name = argv[i];
        LLVMFuzzerTestOneInput(octets, n);
        free(octets);
    }
    printf("%d files agree\n", argc - 1);
    return argc == 1;
}
