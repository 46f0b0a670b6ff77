/* Tells how much memory a process holds that calls libdrc often, for tests/library and bench/library/memory.

   usage: memory FILE WAY COUNT

   FILE is a stream. WAY is `decode`: it is decoded COUNT times, and each geometry is freed before the next; `keep`: all COUNT geometries are
   kept until the last; or `encode`: what it means is encoded COUNT times. One line, in bytes: what the process held with the stream in memory,
   the most that it held, what it held when all was freed, and the arrays of one geometry. Compiled with -DPLAIN, the memory is plain malloc's: it is
   linked with madvise and posix_memalign wrapped, so that no page is advised and no block is put at a place of its own choice. */
#include <drc.h>
#include <stdio.h>
#include <stdlib.h>
#include <string.h>

#ifdef PLAIN
int __wrap_madvise(void *block, size_t size, int advice);
int __wrap_posix_memalign(void **to, size_t align, size_t size);

int __wrap_madvise(void *block, size_t size, int advice) {
    (void)block, (void)size, (void)advice;
    return 0;
}

int __wrap_posix_memalign(void **to, size_t align, size_t size) {
    (void)align;
    *to = malloc(size);
    return *to == NULL;
}
#endif

/* A number of the system's report on this process, in bytes. */
static long held(const char *name) {
    char line[256];
    long kilobytes = 0;
    FILE *status = fopen("/proc/self/status", "r");
    while (status && fgets(line, sizeof line, status))
        if (strncmp(line, name, strlen(name)) == 0) kilobytes = atol(line + strlen(name));
    if (status) fclose(status);
    return kilobytes * 1024;
}

static uint8_t *bytes_of(const char *name, size_t *length) {
    FILE *file = fopen(name, "rb");
    if (!file || fseek(file, 0, SEEK_END)) return NULL;
    *length = (size_t)ftell(file);
    rewind(file);
    uint8_t *bytes = malloc(*length);
    if (bytes && fread(bytes, 1, *length, file) != *length) return NULL;
    fclose(file);
    return bytes;
}

static size_t values_of(const drc_geometry *geometry) {
    return (size_t)geometry->shape.points * geometry->shape.width;
}

/* Encodes a geometry so often. */
static int encode_often(const drc_geometry *geometry, int count) {
    const drc_shape *shape = &geometry->shape;
    drc_options options;
    memset(&options, 0, sizeof options);
    for (int k = 0; k < count; k++) {
        drc_stream stream;
        drc_fault fault;
        if (drc_encode(shape->mesh, shape->heads, shape->attributes, geometry->corners, shape->faces, geometry->values, values_of(geometry), &options,
                       &stream, &fault) != DRC_DONE)
            return 0;
        drc_free_stream(&stream);
    }
    return 1;
}

int main(int count, char **words) {
    size_t length;
    uint8_t *bytes = count == 4 ? bytes_of(words[1], &length) : NULL;
    if (!bytes) return 1;
    const int calls = atoi(words[3]), keeps = strcmp(words[2], "keep") == 0, encodes = strcmp(words[2], "encode") == 0;
    const int decodings = encodes ? 1 : calls;
    drc_geometry *geometries = malloc((size_t)decodings * sizeof *geometries);
    drc_fault fault;
    const long before = held("VmRSS:");
    for (int k = 0; k < decodings; k++) {
        if (drc_decode(bytes, length, 2, &geometries[k], &fault) != DRC_DONE) return 1;
        if (!keeps && !encodes) drc_free(&geometries[k]);
    }
    const size_t arrays = 12 * (size_t)geometries[0].shape.faces + 4 * values_of(&geometries[0]);
    if (encodes && !encode_often(geometries, calls)) return 1;
    for (int k = 0; k < decodings && (keeps || encodes); k++) drc_free(&geometries[k]);
    printf("%ld %ld %ld %zu\n", before, held("VmHWM:"), held("VmRSS:"), arrays);
    free(geometries);
    free(bytes);
    return 0;
}
