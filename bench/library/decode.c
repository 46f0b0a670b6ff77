/* Decodes a stream by libdrc over and over. bench/library/shares builds and runs it.

   usage: decode FILE TURNS */
#include <drc.h>
#include <stdio.h>
#include <stdlib.h>

int main(int count, char **words) {
    FILE *file = count == 3 ? fopen(words[1], "rb") : NULL;
    if (!file || fseek(file, 0, SEEK_END)) return 1;
    const size_t length = (size_t)ftell(file);
    rewind(file);
    uint8_t *bytes = malloc(length);
    if (!bytes || fread(bytes, 1, length, file) != length) return 1;
    fclose(file);
    for (int turn = atoi(words[2]); turn > 0; turn--) {
        drc_geometry geometry;
        drc_fault fault;
        if (drc_decode(bytes, length, 3, &geometry, &fault) != DRC_DONE) return 1;
        drc_free(&geometry);
    }
    free(bytes);
    return 0;
}
