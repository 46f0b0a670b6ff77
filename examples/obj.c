/* Writes a .drc file as OBJ text: the positions of its points, their texture coordinates and normals where it has some, and its faces.
   usage: obj < FILE > TEXT
   build: cc -std=c99 -I include examples/obj.c out/lib/libdrc.a -lm -o obj */
#include <drc.h>
#include <stdio.h>

/* Writes a line for each point: so many floats of the first attribute of a usage. An attribute that has fewer is left out, but positions
   have zeros then. Says whether there are lines: DRC_DONE, or DRC_NO_MEMORY. */
static uint32_t show(const drc_geometry *geometry, int usage, const char *word, size_t count, int *has_lines) {
    const drc_shape *shape = &geometry->shape;
    uint32_t number = 0;
    const int is_found = drc_attribute(shape, usage, DRC_ANY, &number, NULL) == DRC_DONE;
    const size_t points = shape->points, own = drc_float_count(&shape->heads[number]), stride = own < count ? count : own;
    *has_lines = is_found && (usage == DRC_USAGE_POSITION || own >= count);
    if (!*has_lines || points == 0) return DRC_DONE;
    float *floats = (float *)calloc(points * stride, sizeof *floats);
    if (floats == NULL) return DRC_NO_MEMORY;
    uint32_t status = drc_floats(geometry, number, floats, points * stride, stride);
    for (size_t p = 0; status == DRC_DONE && p < points; p++) {
        printf("%s", word);
        for (size_t j = 0; j < count; j++) printf(" %.9g", (double)floats[p * stride + j]);
        printf("\n");
    }
    free(floats);
    return status;
}

/* Writes the faces: a corner has the number of its point, from 1 on, for each list of lines. */
static void show_faces(const drc_geometry *geometry, int has_coordinates, int has_normals) {
    for (size_t f = 0; f < geometry->shape.faces; f++) {
        printf("f");
        for (size_t k = 0; k < 3; k++) {
            const unsigned long number = geometry->corners[3 * f + k] + 1ul;
            printf(" %lu", number);
            if (has_coordinates) printf("/%lu", number);
            if (has_normals) printf(has_coordinates ? "/%lu" : "//%lu", number);
        }
        printf("\n");
    }
}

/* All that standard input has; NULL where there is no memory for it. */
static uint8_t *bytes_of_input(size_t *length) {
    uint8_t *bytes = NULL;
    size_t room = 0, got = 1;
    for (*length = 0; got != 0; *length += got) {
        if (*length == room) {
            uint8_t *grown = (uint8_t *)realloc(bytes, room = 2 * room + 4096);
            if (grown == NULL) {
                free(bytes);
                return NULL;
            }
            bytes = grown;
        }
        got = fread(bytes + *length, 1, room - *length, stdin);
    }
    return bytes;
}

int main(void) {
    size_t length;
    uint8_t *bytes = bytes_of_input(&length);
    if (bytes == NULL) return DRC_NO_MEMORY;
    drc_geometry geometry;
    drc_fault fault;
    uint32_t status = drc_decode(bytes, length, 3, &geometry, &fault);
    free(bytes);
    if (status == DRC_REFUSED) {
        char name[DRC_NAME_ROOM];
        drc_fault_name(fault.kind, name, sizeof name);
        fprintf(stderr, "refused %s %llu\n", name, (unsigned long long)fault.at);
    }
    if (status != DRC_DONE) return (int)status;
    int has_positions, has_coordinates, has_normals;
    status = show(&geometry, DRC_USAGE_POSITION, "v", 3, &has_positions);
    if (status == DRC_DONE) status = show(&geometry, DRC_USAGE_TEXTURE, "vt", 2, &has_coordinates);
    if (status == DRC_DONE) status = show(&geometry, DRC_USAGE_NORMAL, "vn", 3, &has_normals);
    if (status == DRC_DONE) show_faces(&geometry, has_coordinates, has_normals);
    drc_free(&geometry);
    return (int)status;
}
