/* Shows what a .drc file has: the counts, and the least and greatest position of its points.
   usage: count FILE
   build: cc -std=c99 -I include examples/count.c out/lib/libdrc.a -lm -o count */
#include <drc.h>
#include <stdio.h>

/* Writes the least and the greatest float of each component of the first position: DRC_DONE, or DRC_NO_MEMORY. */
static uint32_t show_box(const drc_geometry *geometry) {
    const size_t points = geometry->shape.points;
    uint32_t number;
    if (points == 0 || drc_attribute(&geometry->shape, DRC_USAGE_POSITION, DRC_ANY, &number, NULL) != DRC_DONE) return DRC_DONE;
    const size_t count = drc_float_count(&geometry->shape.heads[number]), room = points * count;
    float *floats = (float *)malloc(room * sizeof *floats);
    if (floats == NULL) return DRC_NO_MEMORY;
    uint32_t status = drc_floats(geometry, number, floats, room, 0);
    for (size_t j = 0; status == DRC_DONE && j < count; j++) {
        float least = floats[j], greatest = least;
        for (size_t p = 1; p < points; p++) {
            const float value = floats[p * count + j];
            if (value < least) least = value;
            if (value > greatest) greatest = value;
        }
        printf("component %d from %g to %g\n", (int)j, (double)least, (double)greatest);
    }
    free(floats);
    return status;
}

/* All bytes of a file, with their number; NULL where they can't be read. */
static uint8_t *bytes_of(const char *path, size_t *length) {
    FILE *file = fopen(path, "rb");
    uint8_t *bytes = NULL;
    size_t room = 0, got = 1;
    *length = 0;
    while (file != NULL && got != 0) {
        if (*length == room) {
            uint8_t *grown = (uint8_t *)realloc(bytes, room = 2 * room + 4096);
            if (grown == NULL) break;
            bytes = grown;
        }
        got = fread(bytes + *length, 1, room - *length, file);
        *length += got;
    }
    if (file == NULL || got != 0 || ferror(file)) {
        free(bytes);
        bytes = NULL;
    }
    if (file != NULL) fclose(file);
    return bytes;
}

int main(int count, char **words) {
    size_t length;
    uint8_t *bytes = count == 2 ? bytes_of(words[1], &length) : NULL;
    if (bytes == NULL) {
        fprintf(stderr, "usage: count FILE, which can be read\n");
        return 1;
    }
    drc_geometry geometry;
    drc_fault fault;
    uint32_t status = drc_decode(bytes, length, 3, &geometry, &fault);
    free(bytes);
    if (status == DRC_REFUSED) {
        char name[DRC_NAME_ROOM];
        drc_fault_name(fault.kind, name, sizeof name);
        fprintf(stderr, "refused %s %llu\n", name, (unsigned long long)fault.at);
    }
    if (status != DRC_DONE) return (int)status;
    printf("%s of %u points, %u faces and %u attributes\n", geometry.shape.mesh ? "mesh" : "cloud",
           (unsigned)geometry.shape.points, (unsigned)geometry.shape.faces, (unsigned)geometry.shape.attributes);
    status = show_box(&geometry);
    drc_free(&geometry);
    return (int)status;
}
