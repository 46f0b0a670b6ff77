/* Tests what is inline in drc.h as C and C++ see it, for tests/library: which attribute is found, floats and integers at any stride, each
   argument that doesn't fit, and a geometry of floats by the library and back. usage: floats. The last line printed is
   'N passed, M failed'; the exit status is 0 where M is 0. */
#include <drc.h>
#include <stdio.h>

static unsigned long passed, failed;

static void tell(int holds, const char *what, int line) {
    holds ? passed++ : failed++;
    if (!holds) printf("FAILED: %s (line %d)\n", what, line);
}

#define TELL(holds) tell((holds) != 0, #holds, __LINE__)

enum { POINTS = 3, MARKED = 40 };
static const float MARK = -77.5f;
static const uint32_t INFINITE = 0x7f800000u, NO_NUMBER = 0x7fc00000u, GREATEST = 0x7f7fffffu;

static float of_pattern(uint32_t pattern) {
    float value;
    memcpy(&value, &pattern, sizeof value);
    return value;
}

static uint32_t pattern_of(float value) {
    uint32_t pattern;
    memcpy(&pattern, &value, sizeof pattern);
    return pattern;
}

/* A geometry of three points with positions on a grid, colours, octahedral normals, and two labels. */
typedef struct scene {
    drc_geometry geometry;
    int32_t values[POINTS * 10];
} scene;

static drc_head head_of(uint8_t usage, uint8_t dtype, uint8_t comps, uint32_t id) {
    drc_head head;
    memset(&head, 0, sizeof head);
    head.usage = usage, head.dtype = dtype, head.comps = comps, head.id = id;
    return head;
}

static void make(scene *it) {
    static const int32_t values[POINTS * 10] = {0, 1, 2, 0, 51, 255, 7, 7, -5, 6, 3, 2, 1, 255, 0, 51, 14, 7, 7, 8,
                                                 3, 3, 0, 1, 2, 3, 7, 0, 9, 0};
    drc_shape *shape = &it->geometry.shape;
    memset(it, 0, sizeof *it);
    memcpy(it->values, values, sizeof values);
    it->geometry.values = it->values;
    shape->points = POINTS, shape->width = 10, shape->attributes = 5;
    shape->heads[0] = head_of(DRC_USAGE_POSITION, DRC_TYPE_FLOAT32, 3, 10);
    shape->heads[0].bits = 2, shape->heads[0].range = pattern_of(6);
    shape->heads[0].min[1] = pattern_of(-1), shape->heads[0].min[2] = pattern_of(100);
    shape->heads[1] = head_of(DRC_USAGE_COLOUR, DRC_TYPE_UINT8, 3, 11);
    shape->heads[1].normalized = 1;
    shape->heads[2] = head_of(DRC_USAGE_NORMAL, DRC_TYPE_FLOAT32, 2, 12);
    shape->heads[2].octahedral_bits = 4;
    shape->heads[3] = head_of(DRC_USAGE_GENERIC, DRC_TYPE_INT16, 1, 13);
    shape->heads[4] = head_of(DRC_USAGE_GENERIC, DRC_TYPE_UINT32, 1, 14);
}

/* Whether so many floats are these, and all behind them are as they were. */
static int are(const float *floats, const float *due, size_t count) {
    for (size_t k = 0; k < MARKED; k++)
        if (pattern_of(floats[k]) != pattern_of(k < count ? due[k] : MARK)) return 0;
    return 1;
}

static void mark(float *floats) {
    for (size_t k = 0; k < MARKED; k++) floats[k] = MARK;
}

/* Whether an attribute is found, and stands there. */
static int is_found(const drc_shape *shape, int64_t usage, int64_t id, uint32_t number, uint32_t column) {
    uint32_t one = 1000, two = 1000, again = 1000;
    if (drc_attribute(shape, usage, id, &one, &two) != DRC_DONE || one != number || two != column) return 0;
    if (drc_attribute(shape, usage, id, &again, NULL) != DRC_DONE || again != number) return 0;
    if (drc_attribute(shape, usage, id, NULL, &again) != DRC_DONE || again != column) return 0;
    return drc_attribute(shape, usage, id, NULL, NULL) == DRC_DONE;
}

/* Whether none is, by this status, and nothing is written. */
static int is_none(const drc_shape *shape, int64_t usage, int64_t id, uint32_t status) {
    uint32_t one = 1000, two = 1000;
    return drc_attribute(shape, usage, id, &one, &two) == status && one == 1000 && two == 1000;
}

static void test_attributes(void) {
    scene it;
    make(&it);
    drc_shape *shape = &it.geometry.shape;
    TELL(is_found(shape, DRC_USAGE_POSITION, DRC_ANY, 0, 0) && is_found(shape, DRC_ANY, DRC_ANY, 0, 0));
    TELL(is_found(shape, DRC_USAGE_COLOUR, DRC_ANY, 1, 3) && is_found(shape, DRC_USAGE_NORMAL, DRC_ANY, 2, 6));
    TELL(is_found(shape, DRC_USAGE_GENERIC, DRC_ANY, 3, 8) && is_found(shape, DRC_USAGE_GENERIC, 14, 4, 9));
    TELL(is_found(shape, DRC_ANY, 14, 4, 9));
    TELL(is_none(shape, DRC_USAGE_TEXTURE, DRC_ANY, DRC_NO_ATTRIBUTE) && is_none(shape, DRC_USAGE_POSITION, 11, DRC_NO_ATTRIBUTE));
    TELL(is_none(shape, DRC_ANY, 9, DRC_NO_ATTRIBUTE) && is_none(shape, 256, DRC_ANY, DRC_NO_ATTRIBUTE));
    TELL(is_none(shape, -2, DRC_ANY, DRC_NO_ATTRIBUTE) && is_none(shape, DRC_ANY, INT64_MIN, DRC_NO_ATTRIBUTE));
    shape->heads[4].id = UINT32_MAX;
    TELL(is_found(shape, DRC_ANY, UINT32_MAX, 4, 9) && is_none(shape, DRC_ANY, 14, DRC_NO_ATTRIBUTE));
    shape->attributes = 0;
    TELL(is_none(shape, DRC_ANY, DRC_ANY, DRC_NO_ATTRIBUTE));
    shape->attributes = DRC_MAX_ATTRIBUTES + 1;
    TELL(is_none(shape, DRC_ANY, DRC_ANY, DRC_BAD_ARGUMENT) && is_none(NULL, DRC_ANY, DRC_ANY, DRC_BAD_ARGUMENT));
    TELL(drc_float_count(NULL) == 0 && drc_float_count(&shape->heads[0]) == 3 && drc_float_count(&shape->heads[2]) == 3);
    TELL(drc_float_count(&shape->heads[3]) == 1);
}

static void test_floats(void) {
    static const float places[9] = {0, 1, 104, 6, 3, 102, 6, 5, 100}, normals[9] = {1, 0, 0, 0, 1, 0, 0, 0, -1};
    static const float apart[15] = {0, 1, 104, -77.5f, -77.5f, -77.5f, 6, 3, 102, -77.5f, -77.5f, -77.5f, 6, 5, 100};
    const float shares[9] = {0, 51 / 255.0f, 1, 1, 0, 51 / 255.0f, 1 / 255.0f, 2 / 255.0f, 3 / 255.0f};
    static const float labels[3] = {-5, 7, 9}, others[3] = {6, 8, 0};
    float floats[MARKED];
    scene it;
    make(&it);
    const drc_geometry *geometry = &it.geometry;
    for (size_t stride = 0; stride <= 3; stride += 3) {
        mark(floats);
        TELL(drc_floats(geometry, 0, floats, 9, stride) == DRC_DONE && are(floats, places, 9));
        TELL(drc_floats(geometry, 1, floats, 9, stride) == DRC_DONE && are(floats, shares, 9));
        TELL(drc_floats(geometry, 2, floats, 9, stride) == DRC_DONE && are(floats, normals, 9));
        mark(floats);
        TELL(drc_floats(geometry, 0, floats, 8, stride) == DRC_NO_ROOM && drc_floats(geometry, 2, floats, 8, stride) == DRC_NO_ROOM);
        TELL(drc_floats(geometry, 0, floats, 0, stride) == DRC_NO_ROOM && are(floats, NULL, 0));
    }
    mark(floats);
    TELL(drc_floats(geometry, 3, floats, 3, 1) == DRC_DONE && are(floats, labels, 3));
    TELL(drc_floats(geometry, 4, floats, 3, 0) == DRC_DONE && are(floats, others, 3));
    mark(floats);
    TELL(drc_floats(geometry, 0, floats, 14, 6) == DRC_NO_ROOM && are(floats, NULL, 0));
    TELL(drc_floats(geometry, 0, floats, 15, 6) == DRC_DONE && are(floats, apart, 15));
}

/* Whether neither call takes an attribute of a geometry at a stride, and nothing is written. */
static int are_refused(const scene *it, uint32_t number, size_t stride) {
    float floats[MARKED];
    scene kept = *it;
    if (kept.geometry.values != NULL) kept.geometry.values = kept.values;
    mark(floats);
    drc_geometry before;
    memcpy(&before, &kept.geometry, sizeof before);
    if (drc_floats(&kept.geometry, number, floats, MARKED, stride) != DRC_BAD_ARGUMENT || !are(floats, NULL, 0)) return 0;
    if (drc_quantise(&kept.geometry, number, floats, MARKED, stride) != DRC_BAD_ARGUMENT) return 0;
    return memcmp(&kept.geometry, &before, sizeof before) == 0 && memcmp(kept.values, it->values, sizeof kept.values) == 0;
}

/* Arguments that are none, of both calls: numbers, shapes, heads, strides and NULL. */
static void test_refusals(void) {
    float floats[MARKED];
    scene it;
    make(&it);
    TELL(are_refused(&it, 5, 0) && are_refused(&it, 16, 0) && are_refused(&it, UINT32_MAX, 0));
    TELL(are_refused(&it, 0, 1) && are_refused(&it, 0, 2) && are_refused(&it, 2, 2));
    TELL(drc_floats(NULL, 0, floats, MARKED, 0) == DRC_BAD_ARGUMENT && drc_quantise(NULL, 0, floats, MARKED, 0) == DRC_BAD_ARGUMENT);
    TELL(drc_floats(&it.geometry, 0, NULL, MARKED, 0) == DRC_BAD_ARGUMENT);
    TELL(drc_quantise(&it.geometry, 0, NULL, MARKED, 0) == DRC_BAD_ARGUMENT);
    it.geometry.values = NULL;
    TELL(are_refused(&it, 0, 0));
    it.geometry.shape.points = 0;
    TELL(drc_floats(&it.geometry, 0, NULL, 0, 0) == DRC_DONE && drc_quantise(&it.geometry, 0, NULL, 0, 0) == DRC_DONE);
    make(&it), it.geometry.shape.width = 11;
    TELL(are_refused(&it, 0, 0));
    make(&it), it.geometry.shape.attributes = 4;
    TELL(are_refused(&it, 0, 0));
    make(&it), it.geometry.shape.attributes = 17;
    TELL(are_refused(&it, 0, 0));
    make(&it), it.geometry.shape.attributes = UINT32_MAX;
    TELL(are_refused(&it, 0, 0));
    for (int bits = 0; bits < 256; bits++) {
        make(&it), it.geometry.shape.heads[0].bits = (uint8_t)bits;
        TELL(are_refused(&it, 0, 0) == (bits < 1 || bits > 30));
        make(&it), it.geometry.shape.heads[0].dtype = (uint8_t)bits;
        TELL(bits == 9 || drc_floats(&it.geometry, 0, floats, MARKED, 0) == (bits >= 1 && bits <= 6 ? DRC_DONE : DRC_BAD_ARGUMENT));
        TELL(bits == 9 || drc_quantise(&it.geometry, 0, floats, MARKED, 0) == DRC_BAD_ARGUMENT);
        make(&it), it.geometry.shape.heads[2].octahedral_bits = (uint8_t)bits;
        TELL(are_refused(&it, 2, 0) == (bits < 2 || bits > 30));
        make(&it), it.geometry.shape.heads[0].octahedral_bits = (uint8_t)bits;
        TELL(are_refused(&it, 0, 0) == (bits != 0));
        make(&it), it.geometry.shape.heads[1].octahedral_bits = (uint8_t)bits;
        TELL(bits == 0 || are_refused(&it, 1, 0));
        make(&it), it.geometry.shape.heads[3].comps = (uint8_t)bits;
        it.geometry.shape.width = 9 + (uint32_t)bits, it.geometry.shape.points = 1;
        TELL(drc_floats(&it.geometry, 3, floats, MARKED, 0) == (bits >= 1 && bits <= 8 ? DRC_DONE : DRC_BAD_ARGUMENT));
    }
}

/* Numbers of points and strides of which no array has room: nothing is written or read. */
static void test_rooms(void) {
    float floats[MARKED];
    scene it;
    make(&it), mark(floats);
    it.geometry.shape.points = UINT32_MAX;
    for (size_t stride = 0; stride <= 12; stride += 3) {
        TELL(drc_floats(&it.geometry, 0, floats, MARKED, stride) == DRC_NO_ROOM && are(floats, NULL, 0));
        TELL(drc_quantise(&it.geometry, 0, floats, MARKED, stride) == DRC_BAD_ARGUMENT);
    }
    TELL(drc_floats(&it.geometry, 0, floats, MARKED, SIZE_MAX) == DRC_NO_ROOM && are(floats, NULL, 0));
    it.geometry.shape.points = 2;
    TELL(drc_floats(&it.geometry, 0, floats, MARKED, SIZE_MAX) == DRC_NO_ROOM);
    TELL(drc_floats(&it.geometry, 0, floats, 3, SIZE_MAX / 2) == DRC_NO_ROOM);
    TELL(drc_quantise(&it.geometry, 0, floats, 5, 0) == DRC_BAD_ARGUMENT);
    TELL(drc_quantise(&it.geometry, 0, floats, 3, SIZE_MAX) == DRC_BAD_ARGUMENT);
    it.geometry.shape.points = 1;
    TELL(drc_floats(&it.geometry, 0, floats, 3, SIZE_MAX) == DRC_DONE && drc_quantise(&it.geometry, 0, floats, 3, SIZE_MAX) == DRC_DONE);
    TELL(drc_floats(&it.geometry, 0, floats, 2, SIZE_MAX) == DRC_NO_ROOM);
    TELL(drc_quantise(&it.geometry, 0, floats, 2, 0) == DRC_BAD_ARGUMENT);
}

/* Whether the integers of an attribute are these, and all others are those of a scene. */
static int has(const scene *it, uint32_t column, uint32_t comps, const int32_t *due) {
    scene first;
    make(&first);
    for (uint32_t p = 0; p < POINTS; p++)
        for (uint32_t j = 0; j < comps; j++) first.values[10 * p + column + j] = due[comps * p + j];
    return memcmp(first.values, it->values, sizeof first.values) == 0;
}

static void test_integers(void) {
    static const float places[9] = {-1, 0, 100, 5, -3, 102, 2, 1.01f, 100};
    static const float apart[15] = {-1, 0, 100, 9, 9, 9, 5, -3, 102, 9, 9, 9, 2, 1.01f, 100};
    static const float vectors[9] = {-3, 0, 0, 0, 1e-20f, 0, 0, 7, 0};
    static const int32_t steps[9] = {0, 2, 0, 3, 0, 1, 2, 2, 0}, pairs[6] = {14, 14, 7, 7, 14, 7};
    static const float same[9] = {4, -5, 6, 4, -5, 6, 4, -5, 6};
    static const int32_t zeros[9] = {0};
    scene it;
    drc_head *head = &it.geometry.shape.heads[0];
    for (size_t stride = 0; stride <= 6; stride += 3) {
        make(&it);
        TELL(drc_quantise(&it.geometry, 0, stride == 6 ? apart : places, stride == 6 ? 15 : 9, stride) == DRC_DONE);
        TELL(has(&it, 0, 3, steps) && head->range == pattern_of(6));
        TELL(head->min[0] == pattern_of(-1) && head->min[1] == pattern_of(-3) && head->min[2] == pattern_of(100));
        TELL(head->bits == 2 && head->id == 10 && head->min[3] == 0 && head->octahedral_bits == 0);
    }
    make(&it);
    TELL(drc_quantise(&it.geometry, 0, places, 8, 0) == DRC_BAD_ARGUMENT);
    TELL(drc_quantise(&it.geometry, 0, apart, 14, 6) == DRC_BAD_ARGUMENT);
    TELL(head->min[1] == pattern_of(-1) && has(&it, 0, 0, NULL));
    drc_geometry before;
    memcpy(&before, &it.geometry, sizeof before);
    TELL(drc_quantise(&it.geometry, 2, vectors, 9, 0) == DRC_DONE && has(&it, 6, 2, pairs));
    TELL(memcmp(&before, &it.geometry, sizeof before) == 0);
    make(&it);
    TELL(drc_quantise(&it.geometry, 0, same, 9, 0) == DRC_DONE && has(&it, 0, 3, zeros) && head->range == pattern_of(1));
    TELL(head->min[0] == pattern_of(4) && head->min[1] == pattern_of(-5) && head->min[2] == pattern_of(6));
    make(&it);
    TELL(drc_quantise(&it.geometry, 1, places, 9, 0) == DRC_BAD_ARGUMENT);
    TELL(drc_quantise(&it.geometry, 3, places, 9, 0) == DRC_BAD_ARGUMENT);
    TELL(has(&it, 0, 0, NULL));
    it.geometry.shape.points = 0, it.geometry.values = NULL;
    TELL(drc_quantise(&it.geometry, 0, NULL, 0, 0) == DRC_DONE && head->range == pattern_of(1) && head->min[2] == 0);
}

/* Floats that are no numbers, and extents that are none, are refused wherever they stand, but for what lies between two points. */
static void test_numbers(void) {
    const uint32_t patterns[4] = {INFINITE, INFINITE | 1u << 31, NO_NUMBER, INFINITE + 1};
    float floats[18] = {0};
    scene it;
    for (int which = 0; which < 4; which++) {
        for (int k = 0; k < 18; k++) {
            floats[k] = of_pattern(patterns[which]);
            for (uint32_t number = 0; number <= 2; number += 2) {
                make(&it);
                const uint32_t status = drc_quantise(&it.geometry, number, floats, 18, 6);
                TELL(status == (k % 6 < 3 ? DRC_BAD_ARGUMENT : DRC_DONE) && (status == DRC_DONE || has(&it, 0, 0, NULL)));
            }
            floats[k] = 0;
        }
    }
    make(&it);
    floats[0] = of_pattern(GREATEST), floats[3] = -floats[0];
    TELL(drc_quantise(&it.geometry, 0, floats, 9, 0) == DRC_BAD_ARGUMENT && has(&it, 0, 0, NULL));
    TELL(it.geometry.shape.heads[0].range == pattern_of(6));
    TELL(drc_quantise(&it.geometry, 2, floats, 9, 0) == DRC_DONE);
    for (int bits = 1; bits <= 30; bits++) {
        for (uint32_t least = 1; least < INFINITE; least *= 2) {
            make(&it);
            floats[0] = 0, floats[3] = of_pattern(least), it.geometry.shape.heads[0].bits = (uint8_t)bits;
            TELL(drc_quantise(&it.geometry, 0, floats, 9, 0) == DRC_DONE);
            TELL(it.values[0] == 0 && it.values[10] >= 0 && it.values[10] <= 1 << bits && it.values[20] == 0);
            TELL(it.geometry.shape.heads[0].range >= least && it.geometry.shape.heads[0].range < INFINITE);
        }
    }
}

/* Each pair of coordinates that stands for a direction alone comes back from its unit vector, and others as the pair of that vector. */
static void test_pairs(void) {
    for (int32_t bits = 2; bits <= 9; bits++) {
        const int32_t most = (1 << bits) - 2;
        int same = 1;
        unsigned long changed = 0;
        for (int32_t s = 0; s <= most; s++) {
            for (int32_t t = 0; t <= most; t++) {
                drc_geometry geometry;
                int32_t pair[2];
                float vector[3], again[3];
                memset(&geometry, 0, sizeof geometry);
                geometry.values = pair, pair[0] = s, pair[1] = t;
                geometry.shape.points = 1, geometry.shape.width = 2, geometry.shape.attributes = 1;
                geometry.shape.heads[0] = head_of(DRC_USAGE_NORMAL, DRC_TYPE_FLOAT32, 2, 0);
                geometry.shape.heads[0].octahedral_bits = (uint8_t)bits;
                same = same && drc_floats(&geometry, 0, vector, 3, 0) == DRC_DONE && drc_quantise(&geometry, 0, vector, 3, 0) == DRC_DONE;
                same = same && drc_floats(&geometry, 0, again, 3, 0) == DRC_DONE;
                for (int j = 0; j < 3; j++) same = same && fabsf(vector[j] - again[j]) < 1e-6f;
                changed += pair[0] != s || pair[1] != t;
            }
        }
        TELL(same);
        TELL(changed == 2 * (unsigned long)most - 1); /* half of the border, without its middles, and three corners */
    }
}

/* Floats of a cloud, quantised and encoded, come back by decoding as those that their integers stand for, of each number of bits. */
static void test_library(void) {
    for (int bits = 2; bits <= 30; bits++) {
        float places[30], normals[30], due[60], came[60];
        int32_t values[50];
        drc_options options;
        drc_geometry geometry, again;
        drc_stream stream;
        drc_fault fault;
        memset(&geometry, 0, sizeof geometry);
        memset(&options, 0, sizeof options);
        options.profile = 3;
        for (int k = 0; k < 30; k++) places[k] = (float)(k * k % 31) / 7 - 2, normals[k] = (float)(k * k % 29) - 14;
        geometry.values = values;
        geometry.shape.points = 10, geometry.shape.width = 5, geometry.shape.attributes = 2;
        geometry.shape.heads[0] = head_of(DRC_USAGE_POSITION, DRC_TYPE_FLOAT32, 3, 0);
        geometry.shape.heads[0].bits = (uint8_t)bits;
        geometry.shape.heads[1] = head_of(DRC_USAGE_NORMAL, DRC_TYPE_FLOAT32, 2, 1);
        geometry.shape.heads[1].octahedral_bits = (uint8_t)bits;
        TELL(drc_quantise(&geometry, 0, places, 30, 3) == DRC_DONE && drc_quantise(&geometry, 1, normals, 30, 3) == DRC_DONE);
        TELL(drc_floats(&geometry, 0, due, 57, 6) == DRC_DONE && drc_floats(&geometry, 1, due + 3, 57, 6) == DRC_DONE);
        uint32_t status = drc_encode(0, geometry.shape.heads, 2, NULL, 0, values, 50, &options, &stream, &fault);
        TELL(status == DRC_DONE);
        if (status != DRC_DONE) return;
        status = drc_decode(stream.bytes, stream.lengths.bytes, 3, &again, &fault);
        drc_free_stream(&stream);
        TELL(status == DRC_DONE);
        if (status != DRC_DONE) return;
        TELL(drc_floats(&again, 0, came, 57, 6) == DRC_DONE && drc_floats(&again, 1, came + 3, 57, 6) == DRC_DONE);
        TELL(memcmp(due, came, sizeof due) == 0);
        for (int k = 0; k < 60 && bits >= 12; k++)
            TELL(k % 6 >= 3 || fabsf(came[k] - places[k / 6 * 3 + k % 6]) < 5e-4f);
        drc_free(&again);
    }
}

int main(void) {
    test_attributes();
    test_floats();
    test_refusals();
    test_rooms();
    test_integers();
    test_numbers();
    test_pairs();
    test_library();
    printf("%lu passed, %lu failed\n", passed, failed);
    return failed != 0;
}
