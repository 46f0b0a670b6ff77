/* Tests the library as C and C++ see it, for tests/library: structs, statuses, arrays that are too short, requests for memory that fail,
   threads. usage: library FILE.., each a stream of a mesh or a cloud that is decoded. Compiled with -DMAX_FACES and -DMAX_POINTS, the limits;
   linked with malloc, realloc and free wrapped. */
#define _DEFAULT_SOURCE
#include <drc.h>
#include <errno.h>
#include <pthread.h>
#include <stddef.h>
#include <stdio.h>
#include <string.h>
#include <sys/mman.h>

#ifdef __cplusplus
extern "C" {
#endif
void *__real_malloc(size_t size);
void *__real_realloc(void *old, size_t size);
void __real_free(void *block);
void *__wrap_malloc(size_t size);
void *__wrap_realloc(void *old, size_t size);
void __wrap_free(void *block);
#ifdef __cplusplus
}
#endif

/* Counts are kept while there is one thread alone, and of the requests the size of the largest. */
static int counting;
static long blocks, requests, failing;
static size_t largest;

static int comes(void) {
    return counting && ++requests == failing;
}

void *__wrap_malloc(size_t size) {
    if (counting && size > largest) largest = size;
    void *block = comes() ? (errno = ENOMEM, (void *)NULL) : __real_malloc(size);
    if (counting && block != NULL) blocks++;
    return block;
}

void *__wrap_realloc(void *old, size_t size) {
    if (counting && size > largest) largest = size;
    void *block = comes() ? (errno = ENOMEM, (void *)NULL) : __real_realloc(old, size);
    if (counting && old == NULL && block != NULL) blocks++;
    return block;
}

void __wrap_free(void *block) {
    if (counting && block != NULL) blocks--;
    __real_free(block);
}

static unsigned long passed, failed;

static void tell(int holds, const char *what, int line, const char *of) {
    if (holds) {
        passed++;
        return;
    }
    failed++;
    printf("FAILED: %s (line %d, %s)\n", what, line, of);
}

static const char *subject = "no stream";
#define TELL(holds) tell((holds) != 0, #holds, __LINE__, subject)

#define MARK_CORNER 0xabcdef01u
#define MARK_VALUE (-1234567)
#define MARK_FAULT 0xfeedu

static drc_fault marked(void) {
    drc_fault fault;
    memset(&fault, 0, sizeof fault);
    fault.kind = MARK_FAULT;
    fault.at = MARK_FAULT;
    return fault;
}

static int is_marked(const drc_fault *fault) {
    return fault->kind == MARK_FAULT && fault->at == MARK_FAULT;
}

static int is_fault(const drc_fault *fault, uint32_t kind, uint64_t at) {
    return fault->kind == kind && fault->at == at;
}

static void test_structs(void) {
    TELL(sizeof(drc_fault) == 16 && offsetof(drc_fault, kind) == 0 && offsetof(drc_fault, at) == 8);
    TELL(sizeof(drc_head) == 48 && offsetof(drc_head, usage) == 0 && offsetof(drc_head, dtype) == 1);
    TELL(offsetof(drc_head, comps) == 2 && offsetof(drc_head, normalized) == 3 && offsetof(drc_head, id) == 4);
    TELL(offsetof(drc_head, bits) == 8 && offsetof(drc_head, octahedral_bits) == 9 && offsetof(drc_head, spare) == 10);
    TELL(offsetof(drc_head, range) == 12 && offsetof(drc_head, min) == 16);
    TELL(sizeof(drc_shape) == 788 && offsetof(drc_shape, mesh) == 0 && offsetof(drc_shape, faces) == 4);
    TELL(offsetof(drc_shape, points) == 8 && offsetof(drc_shape, width) == 12 && offsetof(drc_shape, attributes) == 16);
    TELL(offsetof(drc_shape, heads) == 20);
    TELL(sizeof(drc_geometry) == 808 && offsetof(drc_geometry, shape) == 0 && offsetof(drc_geometry, corners) == 792);
    TELL(offsetof(drc_geometry, values) == 800);
    TELL(sizeof(drc_limits) == 16 && offsetof(drc_limits, faces) == 0 && offsetof(drc_limits, points) == 4);
    TELL(offsetof(drc_limits, values) == 8 && offsetof(drc_limits, spare) == 12);
    TELL(sizeof(drc_text) == 16 && offsetof(drc_text, length) == 0 && offsetof(drc_text, bytes) == 8);
    TELL(sizeof(drc_options) == 32 && offsetof(drc_options, method) == 0 && offsetof(drc_options, index) == 4);
    TELL(offsetof(drc_options, predict) == 8 && offsetof(drc_options, walk) == 12 && offsetof(drc_options, plain_values) == 16);
    TELL(offsetof(drc_options, profile) == 20 && offsetof(drc_options, spare) == 24);
    TELL(sizeof(drc_row) == 8 && offsetof(drc_row, number) == 0 && offsetof(drc_row, turn) == 4);
    TELL(sizeof(drc_lengths) == 16 && offsetof(drc_lengths, bytes) == 0 && offsetof(drc_lengths, rows) == 8);
    TELL(sizeof(drc_stream) == 32 && offsetof(drc_stream, lengths) == 0 && offsetof(drc_stream, bytes) == 16);
    TELL(offsetof(drc_stream, rows) == 24);
    TELL(sizeof(drc_verdict) == 16 && offsetof(drc_verdict, kind) == 0 && offsetof(drc_verdict, at) == 8);
}

static void test_names(void) {
    char name[DRC_NAME_ROOM + 1];
    TELL(drc_version() == DRC_VERSION);
    TELL(DRC_NAME_ROOM == 32);
    for (uint32_t kind = 0; kind <= DRC_FAULT_Projection; kind++) {
        memset(name, '#', sizeof name);
        TELL(drc_fault_name(kind, name, DRC_NAME_ROOM) == DRC_DONE);
        size_t length = strlen(name);
        TELL(length >= 1 && length < DRC_NAME_ROOM && name[DRC_NAME_ROOM] == '#');
        memset(name, '#', sizeof name);
        TELL(drc_fault_name(kind, name, length) == DRC_NO_ROOM && name[0] == '#');
        TELL(drc_fault_name(kind, name, length + 1) == DRC_DONE && strlen(name) == length && name[length + 1] == '#');
    }
    memset(name, '#', sizeof name);
    TELL(drc_fault_name(DRC_FAULT_Projection + 1, name, sizeof name) == DRC_BAD_ARGUMENT && name[0] == '#');
    TELL(drc_fault_name(UINT32_MAX, name, sizeof name) == DRC_BAD_ARGUMENT && name[0] == '#');
    TELL(drc_fault_name(0, NULL, 0) == DRC_NO_ROOM);
    TELL(drc_fault_name(DRC_FAULT_Short, name, sizeof name) == DRC_DONE && strcmp(name, "Short") == 0);
}

/* Options of these numbers, with nothing else chosen. */
static drc_options chosen(uint32_t method, uint32_t predict, uint32_t plain_values) {
    drc_options options;
    memset(&options, 0, sizeof options);
    options.method = method, options.predict = predict, options.plain_values = plain_values;
    return options;
}

/* A triangle of int32 positions, for what is refused. */
typedef struct arrays {
    uint32_t mesh;
    drc_head heads[17];
    size_t attributes;
    uint32_t corners[6];
    size_t faces;
    int32_t values[9];
    size_t count;
    drc_options options;
} arrays;

static arrays triangle(void) {
    static const int32_t values[9] = {0, 0, 0, 10, 0, 0, 0, 10, -1};
    arrays all;
    memset(&all, 0, sizeof all);
    all.mesh = 1;
    all.attributes = 1;
    for (int k = 0; k < 17; k++) {
        all.heads[k].usage = k == 0 ? 0 : 4;
        all.heads[k].dtype = 5;
        all.heads[k].comps = k == 0 ? 3 : 1;
    }
    for (uint32_t k = 0; k < 3; k++) all.corners[k] = k;
    all.faces = 1;
    memcpy(all.values, values, sizeof values);
    all.count = 9;
    return all;
}

/* Three points of one integer and of two coordinates in a square of 8 bits, whose greatest is 254. */
static arrays octahedral(void) {
    static const int32_t values[9] = {0, 0, 0, 10, 0, 254, 0, 127, 127};
    arrays all = triangle();
    all.attributes = 2;
    all.heads[0].comps = 1;
    all.heads[1].usage = 1;
    all.heads[1].dtype = 9;
    all.heads[1].comps = 2;
    all.heads[1].octahedral_bits = 8;
    memcpy(all.values, values, sizeof values);
    return all;
}

/* Numbers of no profile. Options alone take 0. */
static const uint32_t no_profiles[] = {0, 1, 4, 5, 255, 258, 259, UINT32_MAX};

/* What begins as its INIT says is zeros, and may be freed before a call wrote it. */
static void test_begun(void) {
    drc_geometry geometry = DRC_GEOMETRY_INIT, no_geometry;
    drc_stream stream = DRC_STREAM_INIT, no_stream;
    drc_text text = DRC_TEXT_INIT, no_text;
    memset(&no_geometry, 0, sizeof no_geometry);
    memset(&no_stream, 0, sizeof no_stream);
    memset(&no_text, 0, sizeof no_text);
    drc_free(&geometry);
    drc_free_stream(&stream);
    drc_free_text(&text);
    drc_free(NULL);
    drc_free_stream(NULL);
    drc_free_text(NULL);
    TELL(memcmp(&geometry.shape, &no_geometry.shape, sizeof geometry.shape) == 0 && geometry.corners == NULL && geometry.values == NULL);
    TELL(memcmp(&stream, &no_stream, sizeof stream) == 0 && memcmp(&text, &no_text, sizeof text) == 0);
}

static uint32_t encode(const arrays *all, drc_stream *stream, drc_fault *fault) {
    return drc_encode(all->mesh, all->heads, all->attributes, all->corners, all->faces, all->values, all->count, &all->options, stream, fault);
}

static int is_answered(const arrays *all, uint32_t status, uint32_t kind, uint64_t at) {
    drc_stream stream;
    drc_lengths lengths = {77, 78};
    drc_fault fault = marked(), again = marked();
    uint8_t bytes[1] = {9};
    drc_row rows[1] = {{8, 7}};
    memset(&stream, 0x5a, sizeof stream);
    drc_stream before = stream;
    int same = encode(all, &stream, &fault) == status && memcmp(&stream, &before, sizeof stream) == 0;
    same = same && drc_encode_into(all->mesh, all->heads, all->attributes, all->corners, all->faces, all->values, all->count, &all->options, bytes,
                                   1, rows, 1, &lengths, &again) == status;
    same = same && bytes[0] == 9 && rows[0].number == 8 && rows[0].turn == 7 && lengths.bytes == 77 && lengths.rows == 78;
    if (status != DRC_REFUSED) return same && is_marked(&fault) && is_marked(&again);
    return same && is_fault(&fault, kind, at) && is_fault(&again, kind, at);
}

static void test_refusals(void) {
    arrays it = triangle();
    drc_fault fault = marked();
    drc_stream stream;
    drc_geometry geometry;
    drc_shape shape;
    memset(&geometry, 0x5a, sizeof geometry);
    memset(&shape, 0x5a, sizeof shape);
    drc_geometry before = geometry;
    TELL(drc_decode(NULL, 0, 2, &geometry, &fault) == DRC_REFUSED && is_fault(&fault, DRC_FAULT_Short, 0));
    TELL(memcmp(&geometry, &before, sizeof geometry) == 0);
    fault = marked();
    TELL(drc_decode_into(NULL, 0, 2, NULL, 0, NULL, 0, &shape, &fault) == DRC_REFUSED && is_fault(&fault, DRC_FAULT_Short, 0));
    TELL(memcmp(&shape, &before, sizeof shape) == 0);

    fault = marked();
    TELL(encode(&it, &stream, &fault) == DRC_DONE && is_marked(&fault) && stream.lengths.rows == 1 && stream.rows[0].number == 0);
    drc_free_stream(&stream);

    it = triangle(), it.mesh = 2;
    TELL(is_answered(&it, DRC_BAD_ARGUMENT, 0, 0));
    it = triangle(), it.mesh = 0;
    TELL(is_answered(&it, DRC_BAD_ARGUMENT, 0, 0));
    it = triangle(), it.count = 8;
    TELL(is_answered(&it, DRC_BAD_ARGUMENT, 0, 0));
    it = triangle(), it.count = 7;
    TELL(is_answered(&it, DRC_BAD_ARGUMENT, 0, 0));
    it = triangle(), it.options.method = 4;
    TELL(is_answered(&it, DRC_BAD_ARGUMENT, 0, 0));
    it = triangle(), it.options.index = 3;
    TELL(is_answered(&it, DRC_BAD_ARGUMENT, 0, 0));
    for (uint32_t profile = 0; profile <= 3; profile++) {
        it = triangle(), it.options.profile = profile, it.options.predict = DRC_PREDICT_SHAPE + 1;
        TELL(is_answered(&it, DRC_BAD_ARGUMENT, 0, 0));
        it.options.predict = DRC_PREDICT_SHAPE, it.corners[1] = 3;
        TELL(profile == 3 ? is_answered(&it, DRC_REFUSED, DRC_FAULT_IndexRange, 0) : is_answered(&it, DRC_BAD_ARGUMENT, 0, 0));
    }
    it = triangle(), it.options.predict = UINT32_MAX, it.options.profile = 3;
    TELL(is_answered(&it, DRC_BAD_ARGUMENT, 0, 0));
    it = triangle(), it.options.walk = UINT32_MAX;
    TELL(is_answered(&it, DRC_BAD_ARGUMENT, 0, 0));
    it = triangle(), it.options.plain_values = 2;
    TELL(is_answered(&it, DRC_BAD_ARGUMENT, 0, 0));
    for (size_t k = 0; k < sizeof no_profiles / sizeof no_profiles[0]; k++) {
        it = triangle(), it.options.profile = no_profiles[k];
        TELL(no_profiles[k] == 0 || is_answered(&it, DRC_BAD_ARGUMENT, 0, 0));
    }
    it = triangle(), it.options.spare[0] = 1;
    TELL(is_answered(&it, DRC_BAD_ARGUMENT, 0, 0));
    it = triangle(), it.options.spare[1] = UINT32_MAX;
    TELL(is_answered(&it, DRC_BAD_ARGUMENT, 0, 0));
    it = triangle(), it.heads[0].spare = 1;
    TELL(is_answered(&it, DRC_BAD_ARGUMENT, 0, 0));
    it = octahedral(), it.heads[1].spare = UINT16_MAX;
    TELL(is_answered(&it, DRC_BAD_ARGUMENT, 0, 0));
    it = triangle(), it.heads[1].spare = 1, it.corners[1] = 3;
    TELL(is_answered(&it, DRC_REFUSED, DRC_FAULT_IndexRange, 0));

    it = triangle(), it.corners[1] = 3;
    TELL(is_answered(&it, DRC_REFUSED, DRC_FAULT_IndexRange, 0));
    it = triangle(), it.faces = 2, it.corners[5] = UINT32_MAX;
    TELL(is_answered(&it, DRC_REFUSED, DRC_FAULT_IndexRange, 1));
    it = triangle(), it.attributes = 17;
    TELL(is_answered(&it, DRC_REFUSED, DRC_FAULT_AttrLimit, 17));
    it = triangle(), it.attributes = 0;
    TELL(is_answered(&it, DRC_REFUSED, DRC_FAULT_NoAttribute, 0));
    it = triangle(), it.heads[0].usage = 5;
    TELL(is_answered(&it, DRC_REFUSED, DRC_FAULT_AttrType, 0));
    it = triangle(), it.heads[0].dtype = 7;
    TELL(is_answered(&it, DRC_REFUSED, DRC_FAULT_DataType, 0));
    it = triangle(), it.heads[0].comps = 9;
    TELL(is_answered(&it, DRC_REFUSED, DRC_FAULT_Components, 0));
    it = triangle(), it.heads[0].comps = 0;
    TELL(is_answered(&it, DRC_REFUSED, DRC_FAULT_Components, 0));
    it = triangle(), it.heads[0].dtype = 9;
    TELL(is_answered(&it, DRC_REFUSED, DRC_FAULT_QuantBits, 0));
    it = triangle(), it.heads[0].dtype = 9, it.heads[0].bits = 31;
    TELL(is_answered(&it, DRC_REFUSED, DRC_FAULT_QuantBits, 0));
    for (uint32_t profile = 0; profile <= 3; profile++) {
        if (profile == 1) continue;
        uint32_t kind = profile == 3 ? DRC_FAULT_Choice : DRC_FAULT_Octahedral;
        it = octahedral(), it.options.profile = profile, it.options.index = DRC_INDEX_PACKED;
        TELL(is_answered(&it, DRC_REFUSED, kind, 1));
        it = octahedral(), it.options.profile = profile, it.options.method = DRC_METHOD_SEQUENTIAL, it.options.walk = DRC_WALK_DEGREE;
        TELL(is_answered(&it, DRC_REFUSED, kind, profile == 3 ? 3 : 1));
        it = octahedral(), it.options.profile = profile, it.mesh = 0, it.faces = 0, it.options.index = DRC_INDEX_PLAIN;
        TELL(is_answered(&it, DRC_REFUSED, kind, 1));
        it = octahedral(), it.options.profile = profile, it.heads[0].usage = 4;
        TELL(is_answered(&it, DRC_REFUSED, profile == 3 ? DRC_FAULT_NoPosition : DRC_FAULT_Octahedral, profile == 3 ? 0 : 1));
        it = octahedral(), it.options.profile = profile, it.values[8] = 255;
        TELL(is_answered(&it, DRC_REFUSED, DRC_FAULT_ValueRange, 8));
        it = octahedral(), it.options.profile = profile, it.heads[1].dtype = 5;
        TELL(is_answered(&it, DRC_REFUSED, DRC_FAULT_DataType, 1));
        it = octahedral(), it.options.profile = profile, it.attributes = 1, it.heads[0] = it.heads[1], it.heads[0].comps = 3;
        TELL(is_answered(&it, DRC_REFUSED, DRC_FAULT_Components, 0));
        it = octahedral(), it.options.profile = profile, it.heads[1].octahedral_bits = 1;
        TELL(is_answered(&it, DRC_REFUSED, DRC_FAULT_QuantBits, 1));
        it = octahedral(), it.options.profile = profile, it.heads[1].octahedral_bits = 31;
        TELL(is_answered(&it, DRC_REFUSED, DRC_FAULT_QuantBits, 1));
    }
    it = triangle(), it.heads[0].dtype = 2;
    TELL(is_answered(&it, DRC_REFUSED, DRC_FAULT_ValueRange, 8));
    it = triangle(), it.heads[0].usage = 4;
    TELL(is_answered(&it, DRC_REFUSED, DRC_FAULT_NoPosition, 0));
    it = triangle(), it.corners[2] = 0;
    TELL(is_answered(&it, DRC_REFUSED, DRC_FAULT_Degenerate, 0));
    it = triangle(), it.faces = 0;
    TELL(is_answered(&it, DRC_REFUSED, DRC_FAULT_Empty, 0));
    it = triangle(), it.mesh = 0, it.faces = 0, it.options.method = DRC_METHOD_EDGEBREAKER;
    TELL(is_answered(&it, DRC_REFUSED, DRC_FAULT_Choice, 0));
    it = triangle(), it.options.index = DRC_INDEX_PLAIN;
    TELL(is_answered(&it, DRC_REFUSED, DRC_FAULT_Choice, 1));
    it = triangle(), it.options.method = DRC_METHOD_SEQUENTIAL, it.options.predict = DRC_PREDICT_MULTI;
    TELL(is_answered(&it, DRC_REFUSED, DRC_FAULT_Choice, 2));
    it = triangle(), it.options.method = DRC_METHOD_SEQUENTIAL, it.options.walk = DRC_WALK_DEPTH;
    TELL(is_answered(&it, DRC_REFUSED, DRC_FAULT_Choice, 3));
    fault = marked();
    TELL(drc_encode(0, NULL, 0, NULL, 0, NULL, 0, &it.options, &stream, &fault) == DRC_REFUSED && is_fault(&fault, DRC_FAULT_NoAttribute, 0));
}

/* Whether recoding answers this in both ways and, as it isn't done, writes nothing but the fault of a refusal. */
static int is_recoded(const uint8_t *bytes, size_t length, const drc_options *options, uint32_t status, uint32_t kind, uint64_t at) {
    drc_stream stream;
    drc_lengths lengths = {77, 78};
    drc_fault fault = marked(), again = marked();
    uint8_t written[1] = {9};
    drc_row rows[1] = {{8, 7}};
    memset(&stream, 0x5a, sizeof stream);
    drc_stream before = stream;
    int same = drc_recode(bytes, length, options, &stream, &fault) == status && memcmp(&stream, &before, sizeof stream) == 0;
    same = same && drc_recode_into(bytes, length, options, written, 1, rows, 1, &lengths, &again) == status;
    same = same && written[0] == 9 && rows[0].number == 8 && rows[0].turn == 7 && lengths.bytes == 77 && lengths.rows == 78;
    if (status != DRC_REFUSED) return same && is_marked(&fault) && is_marked(&again);
    return same && is_fault(&fault, kind, at) && is_fault(&again, kind, at);
}

static void test_recoding(void) {
    arrays it = triangle();
    drc_stream stream;
    drc_fault fault = marked();
    TELL(encode(&it, &stream, &fault) == DRC_DONE);
    const uint8_t *bytes = stream.bytes;
    size_t length = stream.lengths.bytes;
    drc_options options = chosen(4, 0, 0);
    TELL(is_recoded(bytes, length, &options, DRC_BAD_ARGUMENT, 0, 0));
    TELL(is_recoded(NULL, 0, &options, DRC_BAD_ARGUMENT, 0, 0));
    options.method = 0, options.index = 3;
    TELL(is_recoded(bytes, length, &options, DRC_BAD_ARGUMENT, 0, 0));
    options.index = 0;
    for (uint32_t profile = 0; profile <= 3; profile++) {
        options.profile = profile, options.predict = DRC_PREDICT_SHAPE + 1;
        TELL(is_recoded(bytes, length, &options, DRC_BAD_ARGUMENT, 0, 0));
        options.predict = DRC_PREDICT_SHAPE;
        TELL(profile == 3 ? is_recoded(bytes, 20, &options, DRC_REFUSED, DRC_FAULT_Short, 20)
                          : is_recoded(bytes, length, &options, DRC_BAD_ARGUMENT, 0, 0));
    }
    options.method = DRC_METHOD_SEQUENTIAL;
    TELL(is_recoded(bytes, length, &options, DRC_REFUSED, DRC_FAULT_Choice, 2));
    options.method = 0, options.profile = 0, options.predict = 0, options.walk = 3;
    TELL(is_recoded(bytes, length, &options, DRC_BAD_ARGUMENT, 0, 0));
    options.walk = 0, options.plain_values = UINT32_MAX;
    TELL(is_recoded(bytes, length, &options, DRC_BAD_ARGUMENT, 0, 0));
    options.plain_values = 0;
    for (size_t k = 1; k < sizeof no_profiles / sizeof no_profiles[0]; k++) {
        options.profile = no_profiles[k];
        TELL(is_recoded(bytes, length, &options, DRC_BAD_ARGUMENT, 0, 0));
        TELL(is_recoded(NULL, 0, &options, DRC_BAD_ARGUMENT, 0, 0));
    }
    options.profile = 0, options.spare[0] = UINT32_MAX;
    TELL(is_recoded(bytes, length, &options, DRC_BAD_ARGUMENT, 0, 0));
    options.spare[0] = 0, options.spare[1] = 1;
    TELL(is_recoded(NULL, 0, &options, DRC_BAD_ARGUMENT, 0, 0));
    options.spare[1] = 0;
    TELL(is_recoded(NULL, 0, &options, DRC_REFUSED, DRC_FAULT_Short, 0));
    TELL(is_recoded(bytes, 20, &options, DRC_REFUSED, DRC_FAULT_Short, 20));
    drc_lengths lengths = {77, 78};
    TELL(drc_recode_into(bytes, length, &options, NULL, 0, NULL, 0, &lengths, &fault) == DRC_NO_ROOM && is_marked(&fault));
    TELL(lengths.bytes == length && lengths.rows == 1);
    options.index = DRC_INDEX_PACKED;
    TELL(is_recoded(bytes, 20, &options, DRC_REFUSED, DRC_FAULT_Short, 20));
    TELL(is_recoded(bytes, length, &options, DRC_REFUSED, DRC_FAULT_Choice, 1));
    drc_free_stream(&stream);
}

/* Whether restoring answers this and, as it isn't done, writes nothing but the fault of a refusal. */
static int is_restored_in(uint32_t profile, uint32_t mesh, const drc_row *rows, size_t count, const drc_stream *old, uint32_t status, uint32_t kind,
                          uint64_t at) {
    drc_stream stream;
    drc_fault fault = marked();
    memset(&stream, 0x5a, sizeof stream);
    drc_stream before = stream;
    drc_lengths lengths = {77, 78};
    drc_fault again = marked();
    uint8_t written[1] = {9};
    int same = drc_restore(mesh, rows, count, old->bytes, old->lengths.bytes, profile, &stream, &fault) == status;
    same = same && memcmp(&stream, &before, sizeof stream) == 0;
    same = same && drc_restore_into(mesh, rows, count, old->bytes, old->lengths.bytes, profile, written, 1, &lengths, &again) == status;
    same = same && written[0] == 9 && lengths.bytes == 77 && lengths.rows == 78;
    if (status != DRC_REFUSED) return same && is_marked(&fault) && is_marked(&again);
    return same && is_fault(&fault, kind, at) && is_fault(&again, kind, at);
}

/* The same in each profile. */
static int is_restored(uint32_t mesh, const drc_row *rows, size_t count, const drc_stream *old, uint32_t status, uint32_t kind, uint64_t at) {
    return is_restored_in(2, mesh, rows, count, old, status, kind, at) && is_restored_in(3, mesh, rows, count, old, status, kind, at);
}

static void test_restoring(void) {
    arrays it = triangle();
    drc_stream stream, restored, none;
    drc_fault fault = marked();
    drc_row rows[2] = {{0, 0}, {0, 0}};
    memset(&none, 0, sizeof none);
    TELL(encode(&it, &stream, &fault) == DRC_DONE);
    TELL(drc_restore(1, rows, 1, stream.bytes, stream.lengths.bytes, 2, &restored, &fault) == DRC_DONE && is_marked(&fault));
    TELL(restored.lengths.rows == 0 && restored.rows == NULL && restored.bytes[8] == 0);
    drc_free_stream(&restored);
    TELL(is_restored(2, rows, 1, &stream, DRC_BAD_ARGUMENT, 0, 0));
    TELL(is_restored(UINT32_MAX, NULL, 0, &none, DRC_BAD_ARGUMENT, 0, 0));
    for (size_t k = 0; k < sizeof no_profiles / sizeof no_profiles[0]; k++) {
        TELL(is_restored_in(no_profiles[k], 1, rows, 1, &stream, DRC_BAD_ARGUMENT, 0, 0));
        TELL(is_restored_in(no_profiles[k], 0, NULL, 0, &none, DRC_BAD_ARGUMENT, 0, 0));
    }
    TELL(is_restored(0, NULL, 0, &none, DRC_REFUSED, DRC_FAULT_Short, 0));
    TELL(is_restored(0, rows, 1, &stream, DRC_REFUSED, DRC_FAULT_MapKind, 0));
    TELL(is_restored(1, NULL, 0, &stream, DRC_REFUSED, DRC_FAULT_MapCount, 0));
    TELL(is_restored(1, rows, 2, &stream, DRC_REFUSED, DRC_FAULT_MapCount, 2));
    static const drc_row bad[] = {{1, 0}, {UINT32_MAX, 0}, {0, 3}, {0, 255}, {0, 256}, {0, UINT32_MAX}};
    for (size_t k = 0; k < sizeof bad / sizeof bad[0]; k++) {
        TELL(is_restored(1, &bad[k], 1, &stream, DRC_REFUSED, DRC_FAULT_BadMap, 0));
    }
    drc_free_stream(&stream);
}

/* Whether verifying answers this: a verdict where it is or isn't the same, a fault where it is refused, and nothing else is written. */
static int is_verified_in(uint32_t profile, const arrays *all, const drc_row *rows, size_t count, const uint8_t *bytes, size_t length,
                          uint32_t surface, uint32_t status, uint32_t kind, uint64_t at) {
    drc_fault fault = marked();
    drc_verdict verdict;
    memset(&verdict, 0, sizeof verdict);
    verdict.kind = MARK_FAULT, verdict.at = MARK_FAULT;
    uint32_t answer = drc_verify(all->mesh, all->heads, all->attributes, all->corners, all->faces, all->values, all->count, rows, count, bytes,
                                 length, profile, surface, &verdict, &fault);
    int told = status == DRC_DONE || status == DRC_NOT_SAME;
    int right = told ? verdict.kind == kind && verdict.at == at : verdict.kind == MARK_FAULT && verdict.at == MARK_FAULT;
    return answer == status && right && (status == DRC_REFUSED ? is_fault(&fault, kind, at) : is_marked(&fault));
}

/* The same in each profile. */
static int is_verified(const arrays *all, const drc_row *rows, size_t count, const uint8_t *bytes, size_t length, uint32_t surface,
                       uint32_t status, uint32_t kind, uint64_t at) {
    return is_verified_in(2, all, rows, count, bytes, length, surface, status, kind, at) &&
           is_verified_in(3, all, rows, count, bytes, length, surface, status, kind, at);
}

static void test_verifying(void) {
    arrays it = triangle();
    drc_stream stream, plain;
    drc_fault fault = marked();
    drc_row rows[2] = {{0, 0}, {1, 0}};
    TELL(encode(&it, &stream, &fault) == DRC_DONE);
    it.options.method = DRC_METHOD_SEQUENTIAL;
    TELL(encode(&it, &plain, &fault) == DRC_DONE);
    const uint8_t *bytes = stream.bytes;
    size_t length = stream.lengths.bytes;
    for (uint32_t surface = 0; surface < 2; surface++) {
        it = triangle();
        TELL(is_verified(&it, rows, 1, bytes, length, surface, DRC_DONE, DRC_VERDICT_SAME, 0));
        static const drc_row bad[] = {{0, 1}, {0, 2}, {0, 3}, {0, 256}, {0, UINT32_MAX}, {1, 0}, {UINT32_MAX, 0}};
        for (size_t k = 0; k < sizeof bad / sizeof bad[0]; k++) {
            TELL(is_verified(&it, &bad[k], 1, bytes, length, surface, DRC_NOT_SAME, DRC_VERDICT_ROW, 0));
        }
        TELL(is_verified(&it, NULL, 0, bytes, length, surface, DRC_NOT_SAME, DRC_VERDICT_ROWS, 0));
        TELL(is_verified(&it, rows, 2, bytes, length, surface, DRC_NOT_SAME, DRC_VERDICT_ROWS, 2));
        it.values[4] = 1;
        TELL(is_verified(&it, rows, 1, bytes, length, surface, DRC_NOT_SAME, DRC_VERDICT_ROW, 0));
        it.heads[0].id = 1;
        TELL(is_verified(&it, rows, 1, bytes, length, surface, DRC_NOT_SAME, DRC_VERDICT_HEADS, 0));
        it = triangle(), it.mesh = 2;
        TELL(is_verified(&it, rows, 1, bytes, length, surface, DRC_BAD_ARGUMENT, 0, 0));
        it.mesh = 0;
        TELL(is_verified(&it, rows, 1, bytes, length, surface, DRC_BAD_ARGUMENT, 0, 0));
        it = triangle(), it.count = 8;
        TELL(is_verified(&it, rows, 1, NULL, 0, surface, DRC_BAD_ARGUMENT, 0, 0));
        it = triangle();
        TELL(is_verified(&it, rows, 1, NULL, 0, surface, DRC_REFUSED, DRC_FAULT_Short, 0));
        it.corners[1] = 3;
        TELL(is_verified(&it, rows, 1, NULL, 0, surface, DRC_REFUSED, DRC_FAULT_IndexRange, 0));
        it = triangle(), it.attributes = 17;
        TELL(is_verified(&it, rows, 1, bytes, length, surface, DRC_REFUSED, DRC_FAULT_AttrLimit, 17));
        it = triangle(), it.heads[0].spare = 1;
        TELL(is_verified(&it, rows, 1, bytes, length, surface, DRC_BAD_ARGUMENT, 0, 0));
        for (size_t k = 0; k < sizeof no_profiles / sizeof no_profiles[0]; k++) {
            it = triangle();
            TELL(is_verified_in(no_profiles[k], &it, rows, 1, bytes, length, surface, DRC_BAD_ARGUMENT, 0, 0));
            it.corners[1] = 3;
            TELL(is_verified_in(no_profiles[k], &it, rows, 1, NULL, 0, surface, DRC_BAD_ARGUMENT, 0, 0));
        }
    }
    it = triangle();
    TELL(is_verified(&it, rows, 1, bytes, length, 2, DRC_BAD_ARGUMENT, 0, 0));
    drc_verdict unwritten = {MARK_FAULT, MARK_FAULT};
    fault = marked();
    TELL(drc_verify(0, NULL, 0, NULL, 0, NULL, 0, NULL, 0, NULL, 0, 2, 1, &unwritten, &fault) == DRC_REFUSED);
    TELL(is_fault(&fault, DRC_FAULT_NoAttribute, 0) && unwritten.kind == MARK_FAULT && unwritten.at == MARK_FAULT);
    fault = marked();
    TELL(is_verified(&it, rows, 1, bytes, length, UINT32_MAX, DRC_BAD_ARGUMENT, 0, 0));
    TELL(is_verified(&it, rows, 1, plain.bytes, plain.lengths.bytes, 0, DRC_DONE, DRC_VERDICT_SAME, 0));
    TELL(is_verified(&it, rows, 1, plain.bytes, plain.lengths.bytes, 1, DRC_REFUSED, DRC_FAULT_Choice, 0));
    it.corners[1] = 0;
    TELL(is_verified(&it, rows, 1, bytes, length, 0, DRC_NOT_SAME, DRC_VERDICT_ROW, 0));
    TELL(is_verified(&it, rows, 1, bytes, length, 1, DRC_REFUSED, DRC_FAULT_Degenerate, 0));
    it = triangle(), it.heads[0].usage = 1;
    TELL(is_verified(&it, rows, 1, bytes, length, 0, DRC_NOT_SAME, DRC_VERDICT_HEADS, 0));
    TELL(is_verified(&it, rows, 1, bytes, length, 1, DRC_REFUSED, DRC_FAULT_NoPosition, 0));
    it = octahedral();
    TELL(is_verified(&it, rows, 1, bytes, length, 0, DRC_NOT_SAME, DRC_VERDICT_HEADS, 0));
    it = triangle(), it.mesh = 0, it.faces = 0;
    TELL(is_verified(&it, rows, 1, bytes, length, 0, DRC_NOT_SAME, DRC_VERDICT_HEADS, 0));
    TELL(is_verified(&it, rows, 1, bytes, length, 1, DRC_REFUSED, DRC_FAULT_NoPosition, 0));

    /* A square of two triangles that share a side, and a stream whose two triangles aren't glued. */
    static const uint8_t apart[] = {68, 82, 65, 67, 79, 2, 2, 1, 1, 0, 0, 0, 6, 2, 0, 2, 0, 0, 1, 63, 255, 1, 34, 1, 255, 0, 0, 1,
                                    0, 5, 3, 0, 0, 1, 254, 0, 1, 4, 0, 0, 0, 4, 0, 0, 0, 0, 4, 4, 0, 0, 4, 0, 4, 0, 0};
    static const int32_t values[12] = {0, 0, 0, 2, 0, 0, 0, 2, 0, 2, 2, 0};
    static const uint32_t corners[6] = {0, 1, 2, 1, 3, 2};
    drc_verdict verdict = {MARK_FAULT, MARK_FAULT};
    it = triangle();
    for (uint32_t surface = 0; surface < 2; surface++) {
        uint32_t status = drc_verify(1, it.heads, 1, corners, 2, values, 12, rows, 2, apart, sizeof apart, 2, surface, &verdict, &fault);
        TELL(status == (surface ? DRC_NOT_SAME : DRC_DONE) && verdict.kind == (surface ? DRC_VERDICT_PAIR : DRC_VERDICT_SAME) && verdict.at == 0);
    }
    TELL(is_marked(&fault));
    drc_free_stream(&stream);
    drc_free_stream(&plain);
}

/* Three points of two coordinates in a square of 4 bits, by difference. */
static const uint8_t normals[] = {68, 82, 65, 67, 79, 2, 3, 0, 0, 0, 0, 3, 0, 0, 0, 1, 1, 1, 9, 3, 0, 0, 3, 0, 3, 0, 1, 7, 7, 7, 0, 10, 7,
                                  15, 0, 0, 0, 7, 0, 0, 0, 4};

/* Two faces with positions, and texture coordinates that are predicted from them. */
static const uint8_t textured[] = {68, 82, 65, 67, 79, 2, 2, 1, 1, 0, 0, 0, 4, 2, 1, 2, 0, 0, 1, 31, 255, 1, 17, 255, 1, 17, 2, 255, 0, 0,
                                   0, 0, 0, 1, 0, 5, 3, 0, 0, 1, 1, 3, 5, 2, 0, 1, 1, 254, 0, 4, 0, 0, 0, 0, 8, 0, 0, 0, 0, 0, 0, 0, 8, 0,
                                   0, 0, 0, 0, 0, 0, 0, 0, 0, 0, 8, 0, 0, 0, 8, 0, 0, 0, 0, 0, 0, 0, 0, 0, 0, 0, 0, 0, 0, 0, 0, 0, 0, 0, 5,
                                   1, 0, 1, 0, 3, 3, 4, 0, 2, 0, 0, 2, 0, 0, 0, 128, 2, 128, 112, 0, 0, 0, 0, 9, 0, 0, 0};

/* Where the prediction of texture coordinates stands: the first place at which profile 2 refuses a stream that profile 3 reads. */
static uint64_t prediction_place(const drc_stream *stream) {
    drc_geometry geometry;
    drc_fault fault = marked();
    if (drc_decode(stream->bytes, stream->lengths.bytes, 3, &geometry, &fault) != DRC_DONE) return UINT64_MAX;
    drc_free(&geometry);
    TELL(drc_decode(stream->bytes, stream->lengths.bytes, 2, &geometry, &fault) == DRC_REFUSED);
    return stream->bytes[fault.at] == 5 ? fault.at : UINT64_MAX;
}

/* Whether decoding answers this in both ways and, as it isn't done, writes nothing but the fault of a refusal. */
static int is_decoded(const uint8_t *bytes, size_t length, uint32_t profile, uint32_t status, uint32_t kind, uint64_t at) {
    drc_geometry geometry, before;
    drc_fault fault = marked(), again = marked();
    uint32_t corners[3] = {MARK_CORNER, MARK_CORNER, MARK_CORNER};
    int32_t values[1] = {MARK_VALUE};
    drc_shape shape;
    memset(&geometry, 0x5a, sizeof geometry);
    memset(&shape, 0x5a, sizeof shape);
    before = geometry;
    int same = drc_decode(bytes, length, profile, &geometry, &fault) == status && memcmp(&geometry, &before, sizeof geometry) == 0;
    same = same && drc_decode_into(bytes, length, profile, corners, 1, values, 1, &shape, &again) == status;
    same = same && memcmp(&shape, &before, sizeof shape) == 0 && corners[0] == MARK_CORNER && values[0] == MARK_VALUE;
    if (status != DRC_REFUSED) return same && is_marked(&fault) && is_marked(&again);
    return same && is_fault(&fault, kind, at) && is_fault(&again, kind, at);
}

/* What came with profile 3 is read in it, and refused in profile 2; a number of no profile is told before the stream is looked at. */
static void test_profiles(void) {
    static const int32_t coordinates[6] = {7, 7, 14, 7, 4, 0};
    drc_geometry geometry;
    drc_fault fault = marked();
    drc_options options = chosen(0, 0, 0), plain = chosen(0, 0, 0);
    drc_row points[3] = {{0, 0}, {1, 0}, {2, 0}}, faces[2] = {{0, 0}, {1, 0}};
    drc_stream square, texture, restored, again;
    plain.profile = 3;
    memset(&square, 0, sizeof square);
    texture = square, square.bytes = (uint8_t *)normals, square.lengths.bytes = sizeof normals;
    texture.bytes = (uint8_t *)textured, texture.lengths.bytes = sizeof textured;
    for (size_t k = 0; k < sizeof no_profiles / sizeof no_profiles[0]; k++) {
        TELL(is_decoded(normals, sizeof normals, no_profiles[k], DRC_BAD_ARGUMENT, 0, 0));
        TELL(is_decoded(NULL, 0, no_profiles[k], DRC_BAD_ARGUMENT, 0, 0));
    }

    TELL(is_decoded(normals, sizeof normals, 2, DRC_REFUSED, DRC_FAULT_Octahedral, 22));
    TELL(drc_decode(normals, sizeof normals, 3, &geometry, &fault) == DRC_DONE && is_marked(&fault));
    const drc_head *head = &geometry.shape.heads[0];
    TELL(geometry.shape.mesh == 0 && geometry.shape.points == 3 && geometry.shape.width == 2 && geometry.shape.attributes == 1);
    TELL(head->usage == 1 && head->dtype == 9 && head->comps == 2 && head->octahedral_bits == 4 && head->bits == 0 && head->range == 0);
    TELL(head->spare == 0 && head->min[0] == 0 && head->min[1] == 0 && memcmp(geometry.values, coordinates, sizeof coordinates) == 0);
    for (uint32_t profile = 0; profile <= 2; profile += 2) {
        options.profile = profile;
        TELL(is_recoded(normals, sizeof normals, &options, DRC_REFUSED, DRC_FAULT_Octahedral, 22));
    }
    TELL(is_restored_in(2, 0, points, 3, &square, DRC_REFUSED, DRC_FAULT_Octahedral, 22));
    TELL(is_restored_in(3, 1, points, 3, &square, DRC_REFUSED, DRC_FAULT_MapKind, 0));

    /* In profile 3 it is coded anew and put in order. */
    options.profile = 3, options.predict = DRC_PREDICT_NONE;
    TELL(drc_recode(normals, sizeof normals, &options, &restored, &fault) == DRC_DONE && is_marked(&fault));
    TELL(restored.lengths.rows == 3 && restored.bytes[23] == 254);
    TELL(is_decoded(restored.bytes, restored.lengths.bytes, 2, DRC_REFUSED, DRC_FAULT_Octahedral, 22));
    TELL(drc_recode(restored.bytes, restored.lengths.bytes, &plain, &again, &fault) == DRC_DONE && again.bytes[23] == 0);
    drc_free_stream(&restored);
    TELL(drc_restore(0, points, 3, normals, sizeof normals, 3, &restored, &fault) == DRC_DONE && is_marked(&fault));
    TELL(restored.lengths.bytes == again.lengths.bytes && memcmp(restored.bytes, again.bytes, again.lengths.bytes) == 0);
    drc_free_stream(&again);
    drc_free_stream(&restored);
    arrays it = triangle();
    it.mesh = 0, it.faces = 0, it.heads[0] = *head, it.count = 6;
    memcpy(it.values, coordinates, sizeof coordinates);
    TELL(is_verified_in(2, &it, points, 3, normals, sizeof normals, 0, DRC_REFUSED, DRC_FAULT_Octahedral, 22));
    TELL(is_verified_in(3, &it, points, 3, normals, sizeof normals, 0, DRC_DONE, DRC_VERDICT_SAME, 0));
    TELL(is_verified_in(3, &it, points, 3, normals, sizeof normals, 1, DRC_REFUSED, DRC_FAULT_Choice, 0));
    it.values[4] = 5;
    TELL(is_verified_in(3, &it, points, 3, normals, sizeof normals, 0, DRC_NOT_SAME, DRC_VERDICT_ROW, 2));
    it.heads[0].octahedral_bits = 5;
    TELL(is_verified_in(3, &it, points, 3, normals, sizeof normals, 0, DRC_NOT_SAME, DRC_VERDICT_HEADS, 0));
    drc_free(&geometry);

    TELL(is_decoded(textured, sizeof textured, 2, DRC_REFUSED, DRC_FAULT_Prediction, 98));
    options.profile = 2, options.predict = 0;
    TELL(is_recoded(textured, sizeof textured, &options, DRC_REFUSED, DRC_FAULT_Prediction, 98));
    TELL(is_restored_in(2, 1, faces, 2, &texture, DRC_REFUSED, DRC_FAULT_Prediction, 98));
    TELL(drc_restore(1, faces, 2, textured, sizeof textured, 3, &restored, &fault) == DRC_DONE && is_marked(&fault));
    TELL(drc_decode(restored.bytes, restored.lengths.bytes, 2, &geometry, &fault) == DRC_DONE && geometry.shape.faces == 2);
    const drc_shape *shape = &geometry.shape;
    for (uint32_t profile = 2; profile <= 3; profile++) {
        drc_verdict verdict = {MARK_FAULT, MARK_FAULT};
        uint32_t status = drc_verify(shape->mesh, shape->heads, shape->attributes, geometry.corners, shape->faces, geometry.values,
                                     (size_t)shape->points * shape->width, faces, 2, textured, sizeof textured, profile, 1, &verdict, &fault);
        TELL(profile == 2 ? status == DRC_REFUSED && is_fault(&fault, DRC_FAULT_Prediction, 98)
                          : status == DRC_DONE && verdict.kind == DRC_VERDICT_SAME);
    }
    drc_free(&geometry);

    /* Texture coordinates are predicted from positions by shape alone: what is restored, and written in order, has no such prediction. */
    options.profile = 3, options.predict = DRC_PREDICT_SHAPE;
    fault.kind = MARK_FAULT, fault.at = MARK_FAULT;
    TELL(drc_recode(textured, sizeof textured, &options, &again, &fault) == DRC_DONE && again.lengths.rows == 2 && is_marked(&fault));
    TELL(is_decoded(again.bytes, again.lengths.bytes, 2, DRC_REFUSED, DRC_FAULT_Prediction, prediction_place(&again)));
    drc_free_stream(&again);
    TELL(drc_recode(restored.bytes, restored.lengths.bytes, &options, &again, &fault) == DRC_DONE && again.lengths.rows == 2);
    TELL(is_decoded(again.bytes, again.lengths.bytes, 2, DRC_REFUSED, DRC_FAULT_Prediction, prediction_place(&again)));
    drc_free_stream(&again);
    TELL(drc_recode(textured, sizeof textured, &plain, &again, &fault) == DRC_DONE);
    TELL(drc_decode(again.bytes, again.lengths.bytes, 2, &geometry, &fault) == DRC_DONE && geometry.shape.faces == 2);
    drc_free(&geometry);
    drc_free_stream(&again);
    drc_free_stream(&restored);
}

/* A fault that isn't asked for is told by the status alone; options and limits that aren't passed are zeros. */
static void test_left_out(void) {
    arrays it = triangle();
    drc_stream stream = DRC_STREAM_INIT, plain = DRC_STREAM_INIT, again = DRC_STREAM_INIT;
    drc_geometry geometry = DRC_GEOMETRY_INIT;
    drc_text text = DRC_TEXT_INIT;
    drc_shape shape;
    drc_verdict verdict = {MARK_FAULT, MARK_FAULT};
    drc_lengths lengths = {77, 78};
    drc_fault fault = marked();
    uint32_t corners[3];
    int32_t values[9];
    uint8_t written[200];
    TELL(encode(&it, &stream, &fault) == DRC_DONE && stream.lengths.bytes <= sizeof written && is_marked(&fault));
    TELL(drc_encode(1, it.heads, 1, it.corners, 1, it.values, 9, NULL, &plain, NULL) == DRC_DONE);
    TELL(plain.lengths.bytes == stream.lengths.bytes && memcmp(plain.bytes, stream.bytes, stream.lengths.bytes) == 0);
    const uint8_t *bytes = stream.bytes;
    size_t length = stream.lengths.bytes;
    TELL(drc_recode(bytes, length, NULL, &again, NULL) == DRC_DONE && again.lengths.bytes == length);
    TELL(memcmp(again.bytes, bytes, length) == 0);
    drc_free_stream(&again);
    TELL(drc_restore(1, stream.rows, 1, bytes, length, 2, &again, NULL) == DRC_DONE);
    drc_free_stream(&again);
    TELL(drc_decode(bytes, length, 2, &geometry, NULL) == DRC_DONE);
    drc_free(&geometry);
    TELL(drc_decode_within(bytes, length, 2, NULL, &geometry, NULL) == DRC_DONE);
    drc_free(&geometry);
    TELL(drc_decode_into(bytes, length, 2, corners, 1, values, 9, &shape, NULL) == DRC_DONE);
    TELL(drc_declared(bytes, length, 2, &shape, NULL) == DRC_DONE && shape.mesh == 1 && shape.faces == 1 && shape.points == 3);
    TELL(drc_info(bytes, length, 2, &text, NULL) == DRC_DONE && strlen(text.bytes) == text.length);
    TELL(memcmp(text.bytes, "drc 2.2 mesh", 12) == 0);
    drc_free_text(&text);
    TELL(drc_verify(1, it.heads, 1, it.corners, 1, it.values, 9, stream.rows, 1, bytes, length, 2, 1, &verdict, NULL) == DRC_DONE);

    /* The map is left out where it has no place to go or no room, and its length is told all the same. */
    drc_row row = {MARK_FAULT, MARK_FAULT};
    for (int which = 0; which < 3; which++) {
        drc_row *rows = which == 0 ? NULL : &row;
        size_t room = which == 0 ? 9 : 0;
        memset(written, 0, sizeof written);
        uint32_t status = which == 2 ? drc_recode_into(bytes, length, NULL, written, sizeof written, rows, room, &lengths, NULL)
                                     : drc_encode_into(1, it.heads, 1, it.corners, 1, it.values, 9, NULL, written, sizeof written, rows,
                                                       room, &lengths, NULL);
        TELL(status == DRC_DONE);
        TELL(lengths.bytes == length && lengths.rows == 1 && memcmp(written, bytes, length) == 0 && row.number == MARK_FAULT);
    }
    TELL(drc_encode_into(1, it.heads, 1, it.corners, 1, it.values, 9, NULL, written, length - 1, NULL, 0, &lengths, NULL) == DRC_NO_ROOM);
    TELL(drc_recode_into(bytes, length, NULL, NULL, 0, NULL, 0, &lengths, NULL) == DRC_NO_ROOM);
    TELL(lengths.bytes == length && lengths.rows == 1);

    /* Each call refuses so too. */
    it.corners[0] = 9;
    TELL(drc_declared(NULL, 0, 2, &shape, NULL) == DRC_REFUSED && drc_decode(NULL, 0, 2, &geometry, NULL) == DRC_REFUSED);
    TELL(drc_decode_within(NULL, 0, 2, NULL, &geometry, NULL) == DRC_REFUSED && drc_info(NULL, 0, 2, &text, NULL) == DRC_REFUSED);
    TELL(drc_decode_into(NULL, 0, 2, corners, 1, values, 9, &shape, NULL) == DRC_REFUSED);
    TELL(drc_encode(1, it.heads, 1, it.corners, 1, it.values, 9, NULL, &again, NULL) == DRC_REFUSED);
    TELL(drc_encode_into(1, it.heads, 1, it.corners, 1, it.values, 9, NULL, written, 9, NULL, 0, &lengths, NULL) == DRC_REFUSED);
    TELL(drc_recode(NULL, 0, NULL, &again, NULL) == DRC_REFUSED);
    TELL(drc_recode_into(NULL, 0, NULL, written, 9, NULL, 0, &lengths, NULL) == DRC_REFUSED);
    TELL(drc_restore(0, NULL, 0, bytes, length, 2, &again, NULL) == DRC_REFUSED);
    TELL(drc_restore_into(0, NULL, 0, bytes, length, 2, written, 9, &lengths, NULL) == DRC_REFUSED);
    TELL(drc_verify(1, it.heads, 1, it.corners, 1, it.values, 9, NULL, 0, bytes, length, 2, 0, &verdict, NULL) == DRC_REFUSED);
    drc_free_stream(&stream);
    drc_free_stream(&plain);
}

/* More rows than a stream has are refused by their number before they are copied: 2^28 zeros that take no memory. */
static void test_many_rows(void) {
    static const size_t many = (size_t)1 << 28;
    void *zeros = mmap(NULL, 8 * many, PROT_READ, MAP_PRIVATE | MAP_ANONYMOUS | MAP_NORESERVE, -1, 0);
    arrays it = triangle();
    drc_stream stream = DRC_STREAM_INIT, restored = DRC_STREAM_INIT;
    drc_fault fault = marked();
    drc_verdict verdict = {MARK_FAULT, MARK_FAULT};
    TELL(zeros != MAP_FAILED);
    TELL(encode(&it, &stream, &fault) == DRC_DONE);
    const drc_row *rows = (const drc_row *)zeros;
    for (uint32_t surface = 0; zeros != MAP_FAILED && surface <= 1; surface++) {
        counting = 1, requests = 0, largest = 0, failing = 0;
        uint32_t status = drc_verify(1, it.heads, 1, it.corners, 1, it.values, 9, rows, many, stream.bytes, stream.lengths.bytes, 2,
                                     surface, &verdict, &fault);
        counting = 0;
        TELL(status == DRC_NOT_SAME && verdict.kind == DRC_VERDICT_ROWS && verdict.at == many && largest < 100000);
    }
    for (uint32_t mesh = 0; zeros != MAP_FAILED && mesh <= 1; mesh++) {
        counting = 1, requests = 0, largest = 0, failing = 0;
        uint32_t status = drc_restore(mesh, rows, many, stream.bytes, stream.lengths.bytes, 2, &restored, &fault);
        counting = 0;
        TELL(status == DRC_REFUSED && largest < 100000);
        TELL(mesh ? is_fault(&fault, DRC_FAULT_MapCount, many) : is_fault(&fault, DRC_FAULT_MapKind, 0));
    }
    if (zeros != MAP_FAILED) munmap(zeros, 8 * many);
    drc_free_stream(&stream);
}

/* Faults of heads, of numbers and of what a stream declares come before memory is asked for: with none there they are the same. */
static void test_early(void) {
    uint32_t *corners = (uint32_t *)__real_malloc(12 * (size_t)(MAX_FACES + 1));
    int32_t *values = (int32_t *)__real_malloc(4 * (size_t)(MAX_POINTS + 1));
    drc_stream stream;
    drc_verdict verdict;
    memset(corners, 0, 12 * (size_t)(MAX_FACES + 1));
    memset(values, 0, 4 * (size_t)(MAX_POINTS + 1));
    for (int which = 0; which < 8; which++) {
        static const uint32_t kinds[] = {DRC_FAULT_NoAttribute, DRC_FAULT_AttrLimit,  DRC_FAULT_AttrType,   DRC_FAULT_DataType,
                                         DRC_FAULT_Components,  DRC_FAULT_QuantBits, DRC_FAULT_PointLimit, DRC_FAULT_FaceLimit};
        static const uint64_t places[] = {0, 17, 1, 1, 1, 1, MAX_POINTS + 1, MAX_FACES + 1};
        arrays it = triangle();
        size_t faces = which == 7 ? MAX_FACES + 1 : 1, count = which == 6 ? MAX_POINTS + 1 : which == 0 || which == 1 ? 9 : 12;
        it.attributes = which == 0 ? 0 : which == 1 ? 17 : which >= 6 ? 1 : 2;
        if (which == 2) it.heads[1].usage = 5;
        if (which == 3) it.heads[1].dtype = 8;
        if (which == 4) it.heads[1].comps = 9;
        if (which == 5) it.heads[1].dtype = 9, it.heads[1].bits = 31;
        if (which == 6) it.heads[0].comps = 1;
        for (int call = 0; call < 2; call++) {
            drc_fault fault = marked();
            counting = 1, requests = 0, blocks = 0, failing = 1;
            uint32_t status = call ? drc_verify(1, it.heads, it.attributes, corners, faces, values, count, NULL, 0, NULL, 0, 2, 0, &verdict, &fault)
                                   : drc_encode(1, it.heads, it.attributes, corners, faces, values, count, &it.options, &stream, &fault);
            counting = 0;
            TELL(status == DRC_REFUSED && is_fault(&fault, kinds[which], places[which]) && requests == 0);
        }
    }
    static const uint8_t header[] = {68, 82, 65, 67, 79, 2, 1, 1, 0, 0, 0};
    drc_options options = chosen(0, 0, 0);
    drc_geometry geometry;
    for (uint32_t profile = 2; profile <= 4; profile++) {
        for (int call = 0; call < 2; call++) {
            drc_fault fault = marked();
            options.profile = profile;
            counting = 1, requests = 0, failing = 1;
            uint32_t status = call ? drc_recode(header, sizeof header, &options, &stream, &fault)
                                   : drc_decode(header, sizeof header, profile, &geometry, &fault);
            counting = 0;
            TELL(requests == 0 && (profile == 4 ? status == DRC_BAD_ARGUMENT && is_marked(&fault)
                                                : status == DRC_REFUSED && is_fault(&fault, DRC_FAULT_Version, 5)));
        }
    }
    __real_free(corners);
    __real_free(values);
}

/* A stream, and the profile in which it is read. */
typedef struct file {
    uint8_t *bytes;
    size_t length;
    uint32_t profile;
} file;

static file read_file(const char *path) {
    file it = {NULL, 0, 2};
    FILE *from = fopen(path, "rb");
    if (from == NULL) return it;
    fseek(from, 0, SEEK_END);
    long length = ftell(from);
    rewind(from);
    it.bytes = (uint8_t *)__real_malloc((size_t)length + 1);
    it.length = fread(it.bytes, 1, (size_t)length, from);
    fclose(from);
    return it;
}

/* Arrays of the caller with so much room, in which each place is marked. */
typedef struct room {
    uint32_t *corners;
    size_t faces;
    int32_t *values;
    size_t count;
} room;

static room make_room(size_t faces, size_t count) {
    room it = {(uint32_t *)__real_malloc(12 * faces + 1), faces, (int32_t *)__real_malloc(4 * count + 1), count};
    for (size_t k = 0; k < 3 * faces; k++) it.corners[k] = MARK_CORNER;
    for (size_t k = 0; k < count; k++) it.values[k] = MARK_VALUE;
    return it;
}

static void free_room(room *it) {
    __real_free(it->corners);
    __real_free(it->values);
}

/* Whether the places from so many faces and values on are still marked. */
static int is_kept(const room *it, size_t faces, size_t count) {
    int kept = 1;
    for (size_t k = 3 * faces; k < 3 * it->faces; k++) kept = kept && it->corners[k] == MARK_CORNER;
    for (size_t k = count; k < it->count; k++) kept = kept && it->values[k] == MARK_VALUE;
    return kept;
}

static int is_same(const drc_geometry *geometry, const uint32_t *corners, const int32_t *values) {
    size_t faces = geometry->shape.faces, count = (size_t)geometry->shape.points * geometry->shape.width;
    return (faces == 0 || memcmp(geometry->corners, corners, 12 * faces) == 0) && (count == 0 || memcmp(geometry->values, values, 4 * count) == 0);
}

static void test_rooms(const file *it, const drc_geometry *geometry) {
    size_t faces = geometry->shape.faces, count = (size_t)geometry->shape.points * geometry->shape.width;
    for (int more = 0; more <= 3; more += 3) {
        room at = make_room(faces + more, count + more);
        drc_shape shape;
        drc_fault fault = marked();
        memset(&shape, 0x5a, sizeof shape);
        TELL(drc_decode_into(it->bytes, it->length, it->profile, at.corners, at.faces, at.values, at.count, &shape, &fault) == DRC_DONE);
        TELL(is_marked(&fault) && memcmp(&shape, &geometry->shape, sizeof(uint32_t) * 5) == 0 && is_same(geometry, at.corners, at.values));
        TELL(is_kept(&at, faces, count));
        free_room(&at);
    }
    for (int which = 0; which < 3; which++) {
        if (which == 0 && faces == 0) continue;
        room at = make_room(which == 0 ? faces - 1 : faces, which == 1 ? count - 1 : count);
        drc_shape shape;
        drc_fault fault = marked();
        memset(&shape, 0x5a, sizeof shape);
        uint32_t status = which == 2 ? drc_decode_into(it->bytes, it->length, it->profile, NULL, 0, NULL, 0, &shape, &fault)
                                     : drc_decode_into(it->bytes, it->length, it->profile, at.corners, at.faces, at.values, at.count, &shape, &fault);
        TELL(status == DRC_NO_ROOM && is_marked(&fault) && is_kept(&at, 0, 0));
        TELL(shape.faces == faces && (size_t)shape.points * shape.width == count && shape.attributes == geometry->shape.attributes);
        free_room(&at);
    }
}

/* The heads of two shapes are the same, whatever lies between their fields. */
static int are_same_heads(const drc_shape *a, const drc_shape *b) {
    int same = a->attributes == b->attributes;
    for (int k = 0; k < DRC_MAX_ATTRIBUTES; k++) {
        const drc_head *p = &a->heads[k], *q = &b->heads[k];
        same = same && p->usage == q->usage && p->dtype == q->dtype && p->comps == q->comps && p->normalized == q->normalized && p->id == q->id;
        same = same && p->bits == q->bits && p->octahedral_bits == q->octahedral_bits && p->spare == 0 && q->spare == 0;
        same = same && p->range == q->range && memcmp(p->min, q->min, sizeof p->min) == 0;
    }
    return same;
}

static uint32_t verify(uint32_t profile, const drc_geometry *geometry, const drc_stream *stream, uint32_t surface, drc_verdict *verdict,
                       drc_fault *fault) {
    const drc_shape *shape = &geometry->shape;
    return drc_verify(shape->mesh, shape->heads, shape->attributes, geometry->corners, shape->faces, geometry->values,
                      (size_t)shape->points * shape->width, stream->rows, stream->lengths.rows, stream->bytes, stream->lengths.bytes, profile,
                      surface, verdict, fault);
}

/* A stream is the geometry by its map, and glued as it where it is Edgebreaker's; and it isn't by a map with one other turn. */
static void test_checked(uint32_t profile, drc_stream *stream, const drc_geometry *geometry) {
    drc_verdict verdict = {MARK_FAULT, MARK_FAULT};
    drc_fault fault = marked();
    TELL(verify(profile, geometry, stream, 0, &verdict, &fault) == DRC_DONE && verdict.kind == DRC_VERDICT_SAME && verdict.at == 0);
    uint32_t status = verify(profile, geometry, stream, 1, &verdict, &fault);
    TELL(stream->bytes[8] == 1 ? status == DRC_DONE && verdict.kind == DRC_VERDICT_SAME : status == DRC_REFUSED);
    TELL(stream->bytes[8] == 1 ? is_marked(&fault) : is_fault(&fault, DRC_FAULT_Choice, 0));
    size_t last = stream->lengths.rows - 1;
    uint32_t turn = stream->rows[last].turn;
    stream->rows[last].turn = geometry->shape.mesh ? (turn + 1) % 3 : 1;
    TELL(verify(profile, geometry, stream, 0, &verdict, &fault) == DRC_NOT_SAME && verdict.kind == DRC_VERDICT_ROW && verdict.at == last);
    stream->rows[last].turn = turn;
}

/* A stream in the order before its map has the faces of the geometry, or its points where it is a cloud, in their order. */
static void test_restored(uint32_t profile, const drc_stream *stream, const drc_geometry *geometry) {
    const drc_shape *shape = &geometry->shape;
    drc_stream restored;
    drc_geometry first;
    drc_fault fault = marked();
    TELL(drc_restore(shape->mesh, stream->rows, stream->lengths.rows, stream->bytes, stream->lengths.bytes, profile, &restored, &fault) == DRC_DONE);
    TELL(is_marked(&fault) && restored.lengths.rows == 0 && restored.rows == NULL);
    if (!is_marked(&fault)) return;
    TELL(drc_decode(restored.bytes, restored.lengths.bytes, profile, &first, &fault) == DRC_DONE);
    TELL(first.shape.faces == shape->faces && are_same_heads(&first.shape, shape));
    for (size_t k = 0; k < 3 * (size_t)shape->faces; k++) {
        size_t mine = first.corners[k], its = geometry->corners[k];
        TELL(memcmp(first.values + mine * shape->width, geometry->values + its * shape->width, 4 * shape->width) == 0);
    }
    size_t count = (size_t)shape->points * shape->width;
    if (!shape->mesh) TELL(first.shape.points == shape->points && memcmp(first.values, geometry->values, 4 * count) == 0);
    drc_free(&first);
    size_t length = restored.lengths.bytes;
    for (int more = -1; more <= 1; more++) {
        uint8_t *bytes = (uint8_t *)__real_malloc(length + 1);
        drc_lengths lengths = {1, 2};
        memset(bytes, 0xcc, length + 1);
        uint32_t status = drc_restore_into(shape->mesh, stream->rows, stream->lengths.rows, stream->bytes, stream->lengths.bytes, profile,
                                           bytes, length + (size_t)more, &lengths, &fault);
        TELL(status == (more < 0 ? DRC_NO_ROOM : DRC_DONE) && lengths.bytes == length && lengths.rows == 0 && is_marked(&fault));
        int kept = bytes[length] == 0xcc;
        for (size_t k = 0; more < 0 && k < length; k++) kept = kept && bytes[k] == 0xcc;
        TELL(kept && (more < 0 || memcmp(bytes, restored.bytes, length) == 0));
        __real_free(bytes);
    }
    drc_free_stream(&restored);
}

/* A stream is recoded to what its arrays are encoded to, bytes and map, or refused by the same fault. */
static void test_recoded(const file *it, const drc_geometry *geometry, const drc_options *options) {
    const drc_shape *shape = &geometry->shape;
    drc_stream due, stream;
    drc_fault fault = marked(), again = marked();
    uint32_t status = drc_encode(shape->mesh, shape->heads, shape->attributes, geometry->corners, shape->faces, geometry->values,
                                 (size_t)shape->points * shape->width, options, &due, &fault);
    TELL(drc_recode(it->bytes, it->length, options, &stream, &again) == status && fault.kind == again.kind && fault.at == again.at);
    if (status != DRC_DONE) return;
    size_t length = due.lengths.bytes, rows = due.lengths.rows;
    TELL(stream.lengths.bytes == length && stream.lengths.rows == rows);
    TELL(memcmp(stream.bytes, due.bytes, length) == 0 && memcmp(stream.rows, due.rows, 8 * rows) == 0);
    for (int which = 0; which < 3; which++) {
        if (which == 1 && rows < 2) continue;
        size_t room = which == 0 ? length - 1 : length, row_room = which == 1 ? rows - 1 : rows;
        uint8_t *bytes = (uint8_t *)__real_malloc(length + 1);
        drc_row *map = (drc_row *)__real_malloc(8 * rows + 1);
        drc_lengths lengths = {1, 2};
        memset(bytes, 0xcc, length + 1);
        memset(map, 0xcc, 8 * rows);
        status = drc_recode_into(it->bytes, it->length, options, bytes, room, map, row_room, &lengths, &again);
        TELL(lengths.bytes == length && lengths.rows == rows && is_marked(&again) && bytes[length] == 0xcc);
        if (which == 2) {
            TELL(status == DRC_DONE && memcmp(bytes, due.bytes, length) == 0 && memcmp(map, due.rows, 8 * rows) == 0);
        } else {
            int kept = status == DRC_NO_ROOM;
            for (size_t k = 0; k < length; k++) kept = kept && bytes[k] == 0xcc;
            for (size_t k = 0; k < 8 * rows; k++) kept = kept && ((uint8_t *)map)[k] == 0xcc;
            TELL(kept);
        }
        __real_free(bytes);
        __real_free(map);
    }
    drc_free_stream(&due);
    drc_free_stream(&stream);
}

/* Whether a geometry is encoded so; then it is decoded, verified and put in order in the profile of the options. */
static int test_again(const drc_geometry *geometry, const drc_options *options) {
    const drc_shape *shape = &geometry->shape;
    size_t count = (size_t)shape->points * shape->width;
    uint32_t profile = options->profile == 3 ? 3 : 2;
    drc_stream stream;
    drc_fault fault = marked();
    uint32_t status = drc_encode(shape->mesh, shape->heads, shape->attributes, geometry->corners, shape->faces, geometry->values, count, options,
                                 &stream, &fault);
    TELL(status == DRC_DONE || status == DRC_REFUSED);
    if (status != DRC_DONE) return 0;
    TELL(is_marked(&fault));
    drc_geometry again;
    TELL(drc_decode(stream.bytes, stream.lengths.bytes, profile, &again, &fault) == DRC_DONE);
    TELL(again.shape.mesh == shape->mesh && again.shape.faces == shape->faces && again.shape.width == shape->width);
    TELL(are_same_heads(&again.shape, shape));
    TELL(stream.lengths.rows == (shape->mesh ? shape->faces : shape->points));
    for (size_t f = 0; f < again.shape.faces; f++) {
        for (uint32_t k = 0; k < 3; k++) {
            size_t mine = again.corners[3 * f + k], its = geometry->corners[3 * stream.rows[f].number + (k + stream.rows[f].turn) % 3];
            TELL(memcmp(again.values + mine * shape->width, geometry->values + its * shape->width, 4 * shape->width) == 0);
        }
    }
    drc_free(&again);
    test_checked(profile, &stream, geometry);
    test_restored(profile, &stream, geometry);

    size_t length = stream.lengths.bytes, rows = stream.lengths.rows;
    for (int which = 0; which < 3; which++) {
        if (which == 1 && rows < 2) continue;
        size_t room = which == 0 ? length - 1 : length, row_room = which == 1 ? rows - 1 : rows;
        uint8_t *bytes = (uint8_t *)__real_malloc(length + 1);
        drc_row *map = (drc_row *)__real_malloc(8 * rows + 1);
        drc_lengths lengths = {1, 2};
        memset(bytes, 0xcc, length);
        memset(map, 0xcc, 8 * rows);
        fault = marked();
        status = drc_encode_into(shape->mesh, shape->heads, shape->attributes, geometry->corners, shape->faces, geometry->values, count, options,
                                 bytes, room, map, row_room, &lengths, &fault);
        TELL(is_marked(&fault) && lengths.bytes == length && lengths.rows == rows);
        if (which == 2) {
            TELL(status == DRC_DONE && memcmp(bytes, stream.bytes, length) == 0 && (rows == 0 || memcmp(map, stream.rows, 8 * rows) == 0));
        } else {
            int kept = status == DRC_NO_ROOM;
            for (size_t k = 0; k < length; k++) kept = kept && bytes[k] == 0xcc;
            for (size_t k = 0; k < 8 * rows; k++) kept = kept && ((uint8_t *)map)[k] == 0xcc;
            TELL(kept);
        }
        __real_free(bytes);
        __real_free(map);
    }
    drc_free_stream(&stream);
    return 1;
}

/* In profile 2 a geometry is refused at its first octahedral attribute, whatever else is chosen. */
static void test_refused(const drc_geometry *geometry) {
    const drc_shape *shape = &geometry->shape;
    uint32_t first = 0;
    while (first < shape->attributes && shape->heads[first].octahedral_bits == 0) first++;
    if (first == shape->attributes) return;
    for (uint32_t method = 0; method <= 3; method++) {
        for (uint32_t predict = 0; predict <= DRC_PREDICT_MULTI; predict++) {
            drc_options options = chosen(method, predict, 0);
            drc_stream stream;
            drc_fault fault = marked();
            options.profile = method & 2;
            TELL(drc_encode(shape->mesh, shape->heads, shape->attributes, geometry->corners, shape->faces, geometry->values,
                            (size_t)shape->points * shape->width, &options, &stream, &fault) == DRC_REFUSED);
            TELL(is_fault(&fault, DRC_FAULT_Octahedral, first));
        }
    }
}

/* Octahedral attributes of arrays are written in profile 3, by each method and prediction that go with each other. */
static void test_squares(void) {
    arrays it = octahedral();
    drc_geometry geometry;
    memset(&geometry, 0, sizeof geometry);
    it.values[6] = 20;
    geometry.corners = it.corners, geometry.values = it.values;
    geometry.shape.points = 3, geometry.shape.width = 3, geometry.shape.attributes = 2;
    memcpy(geometry.shape.heads, it.heads, 2 * sizeof it.heads[0]);
    for (uint32_t mesh = 0; mesh <= 1; mesh++) {
        geometry.shape.mesh = mesh, geometry.shape.faces = mesh;
        for (uint32_t method = 0; method <= 3; method++) {
            for (uint32_t predict = 0; predict <= DRC_PREDICT_SHAPE; predict++) {
                drc_options options = chosen(method, predict, method & 1);
                int over = method == 0 ? mesh : method != DRC_METHOD_SEQUENTIAL;
                int fits = over ? (int)mesh : predict <= DRC_PREDICT_DIFFERENCE;
                options.profile = 3;
                TELL(test_again(&geometry, &options) == fits);
            }
        }
        test_refused(&geometry);
    }
}

/* What a stream declares is what its geometry has, but for the points of an Edgebreaker mesh, and takes no memory; where it is refused,
   each front of the stream too, it is by the stream's first fault. */
static void test_declared(const file *it, const drc_geometry *geometry) {
    drc_shape shape, before;
    drc_fault fault = marked();
    memset(&shape, 0x5a, sizeof shape);
    before = shape;
    for (size_t k = 0; k < sizeof no_profiles / sizeof no_profiles[0]; k++) {
        TELL(drc_declared(it->bytes, it->length, no_profiles[k], &shape, &fault) == DRC_BAD_ARGUMENT && is_marked(&fault));
    }
    TELL(memcmp(&shape, &before, sizeof shape) == 0);
    for (size_t length = 0; length <= it->length && length < 400; length++) {
        size_t part = length == 0 ? it->length : length - 1;
        drc_geometry found = DRC_GEOMETRY_INIT;
        drc_fault due = marked();
        fault = marked(), memset(&shape, 0x5a, sizeof shape);
        counting = 1, requests = 0, failing = 1;
        uint32_t status = drc_declared(it->bytes, part, it->profile, &shape, &fault);
        counting = 0;
        TELL(requests == 0 && (status == DRC_DONE ? is_marked(&fault) : memcmp(&shape, &before, sizeof shape) == 0));
        if (status != DRC_DONE) {
            TELL(status == DRC_REFUSED && drc_decode(it->bytes, part, it->profile, &found, &due) == DRC_REFUSED);
            TELL(is_fault(&fault, due.kind, due.at));
            continue;
        }
        TELL(shape.mesh == geometry->shape.mesh && shape.faces == geometry->shape.faces && shape.width == 0 && shape.attributes == 0);
        TELL(it->bytes[8] == 1 || shape.points == geometry->shape.points);
        const uint8_t *heads = (const uint8_t *)shape.heads;
        int zeros = 1;
        for (size_t k = 0; k < sizeof shape.heads; k++) zeros = zeros && heads[k] == 0;
        TELL(zeros);
    }
}

/* Whether decoding within limits answers this, in how many requests for memory, and writes nothing where it isn't done. */
static int is_limited(const file *it, const drc_limits *limits, const drc_geometry *geometry, uint32_t kind, uint64_t at) {
    drc_geometry found, before;
    drc_fault fault = marked();
    memset(&found, 0x5a, sizeof found);
    before = found;
    counting = 1, requests = 0, failing = 0;
    uint32_t status = drc_decode_within(it->bytes, it->length, it->profile, limits, &found, &fault);
    counting = 0;
    if (kind == MARK_FAULT) {
        int same = status == DRC_DONE && is_marked(&fault) && memcmp(&found.shape, &geometry->shape, sizeof found.shape) == 0;
        same = same && is_same(geometry, found.corners, found.values);
        if (status == DRC_DONE) drc_free(&found);
        return same;
    }
    return status == DRC_REFUSED && is_fault(&fault, kind, at) && memcmp(&found, &before, sizeof found) == 0;
}

/* A stream is decoded within limits that are as great as its numbers, and refused at the first that is greater; by those that it declares
   before memory is taken. */
static void test_limits(const file *it, const drc_geometry *geometry) {
    uint32_t faces = geometry->shape.faces, points = geometry->shape.points, values = points * geometry->shape.width;
    drc_limits none = {0, 0, 0, 0}, exact = {faces, points, values, 0}, spare = {0, 0, 0, 1};
    drc_geometry found = DRC_GEOMETRY_INIT;
    drc_shape declared;
    drc_fault fault = marked();
    TELL(drc_declared(it->bytes, it->length, it->profile, &declared, &fault) == DRC_DONE);
    TELL(is_limited(it, &none, geometry, MARK_FAULT, 0));
    if (declared.points <= points) TELL(is_limited(it, &exact, geometry, MARK_FAULT, 0));
    TELL(drc_decode_within(it->bytes, it->length, it->profile, &spare, &found, &fault) == DRC_BAD_ARGUMENT && is_marked(&fault));
    TELL(drc_decode_within(it->bytes, it->length, 4, &none, &found, &fault) == DRC_BAD_ARGUMENT && is_marked(&fault));
    if (faces > 1) {
        drc_limits fewer = {faces - 1, 1, 1, 0};
        TELL(is_limited(it, &fewer, geometry, DRC_FAULT_FaceLimit, faces) && requests == 0);
    }
    if (points > 1) {
        drc_limits fewer = {0, points - 1, 1, 0};
        int early = declared.points >= points;
        TELL(is_limited(it, &fewer, geometry, DRC_FAULT_PointLimit, early ? declared.points : points) && (requests == 0) == early);
    }
    if (values > 1) {
        drc_limits fewer = {0, 0, values - 1, 0};
        TELL(is_limited(it, &fewer, geometry, DRC_FAULT_ValueLimit, values) && requests > 0);
    }
}

/* Each front of a stream is refused, or means something as well. */
static void test_cuts(const file *it) {
    for (size_t length = 0; length < it->length && length < 400; length++) {
        uint8_t *bytes = (uint8_t *)__real_malloc(length + 1);
        drc_geometry geometry;
        drc_fault fault = marked();
        memcpy(bytes, it->bytes, length);
        uint32_t status = drc_decode(bytes, length, it->profile, &geometry, &fault);
        TELL(status == DRC_DONE ? is_marked(&fault) : status == DRC_REFUSED && fault.kind <= DRC_FAULT_Projection);
        if (status == DRC_DONE) drc_free(&geometry);
        __real_free(bytes);
    }
}

enum { DECODES, DECODES_WITHIN, TELLS, ENCODES, RECODES, RESTORES, VERIFIES, CALLS };

/* Makes one call on a stream with its geometry, and frees what it gives. `made` is the stream of that geometry with its map. */
static uint32_t called(int call, const file *it, const drc_geometry *geometry, const drc_stream *made, drc_fault *fault) {
    const drc_shape *shape = &geometry->shape;
    drc_options options = chosen(0, 0, 0);
    drc_limits limits = {shape->faces, 0, shape->points * shape->width, 0};
    drc_geometry found;
    drc_stream stream;
    drc_text text;
    drc_verdict verdict;
    uint32_t status = DRC_DONE;
    options.profile = it->profile;
    switch (call) {
    case DECODES:
        status = drc_decode(it->bytes, it->length, it->profile, &found, fault);
        if (status == DRC_DONE) drc_free(&found);
        return status;
    case DECODES_WITHIN:
        status = drc_decode_within(it->bytes, it->length, it->profile, &limits, &found, fault);
        if (status == DRC_DONE) drc_free(&found);
        return status;
    case TELLS:
        status = drc_info(it->bytes, it->length, it->profile, &text, fault);
        if (status == DRC_DONE) drc_free_text(&text);
        return status;
    case ENCODES:
        status = drc_encode(shape->mesh, shape->heads, shape->attributes, geometry->corners, shape->faces, geometry->values,
                            (size_t)shape->points * shape->width, &options, &stream, fault);
        break;
    case RECODES: status = drc_recode(it->bytes, it->length, &options, &stream, fault); break;
    case RESTORES:
        status = drc_restore(shape->mesh, made->rows, made->lengths.rows, made->bytes, made->lengths.bytes, it->profile, &stream, fault);
        break;
    default: return verify(it->profile, geometry, made, made->bytes[8], &verdict, fault);
    }
    if (status == DRC_DONE) drc_free_stream(&stream);
    return status;
}

/* Has each request for memory fail in turn: the answer is out of memory, or done where one can do without. */
static void test_failing(const file *it, const drc_geometry *geometry) {
    drc_options options = chosen(0, 0, 0);
    drc_stream made;
    drc_fault fault = marked();
    options.profile = it->profile;
    uint32_t done = drc_recode(it->bytes, it->length, &options, &made, &fault);
    TELL(done == DRC_DONE);
    if (done != DRC_DONE) return;
    for (int call = DECODES; call < CALLS; call++) {
        long number, wanting = 0;
        for (number = 1; number < 20000; number++) {
            fault = marked();
            counting = 1, requests = 0, blocks = 0, failing = number, errno = EDOM;
            uint32_t status = called(call, it, geometry, &made, &fault);
            counting = 0;
            TELL(errno == EDOM && blocks == 0 && is_marked(&fault) && (status == DRC_DONE || status == DRC_NO_MEMORY));
            wanting += status == DRC_NO_MEMORY;
            if (requests < number) break;
        }
        TELL(number > 1 && number < 20000 && wanting > 0);
    }
    drc_free_stream(&made);
}

typedef struct task {
    const file *stream;
    const drc_geometry *geometry;
    unsigned long right;
} task;

static void *decode_often(void *words) {
    task *it = (task *)words;
    for (int k = 0; k < 50; k++) {
        drc_geometry geometry;
        drc_fault fault;
        if (drc_decode(it->stream->bytes, it->stream->length, it->stream->profile, &geometry, &fault) != DRC_DONE) continue;
        it->right += geometry.shape.faces == it->geometry->shape.faces && is_same(it->geometry, geometry.corners, geometry.values);
        drc_free(&geometry);
    }
    return NULL;
}

static void test_threads(const file *it, const drc_geometry *geometry) {
    pthread_t threads[8];
    task tasks[8];
    for (int k = 0; k < 8; k++) {
        tasks[k].stream = it, tasks[k].geometry = geometry, tasks[k].right = 0;
        TELL(pthread_create(&threads[k], NULL, decode_often, &tasks[k]) == 0);
    }
    for (int k = 0; k < 8; k++) {
        pthread_join(threads[k], NULL);
        TELL(tasks[k].right == 50);
    }
}

/* A stream that is decoded in profile 2 means the same in profile 3. */
static void test_later(const file *it, const drc_geometry *geometry) {
    drc_geometry later;
    drc_fault fault = marked();
    uint32_t status = drc_decode(it->bytes, it->length, 3, &later, &fault);
    TELL(status == DRC_DONE && is_marked(&fault));
    if (status != DRC_DONE) return;
    TELL(memcmp(&later.shape, &geometry->shape, sizeof later.shape) == 0 && is_same(geometry, later.corners, later.values));
    drc_free(&later);
}

static void test_stream(const char *path) {
    subject = path;
    file it = read_file(path);
    drc_geometry geometry;
    drc_fault fault = marked();
    TELL(it.bytes != NULL);
    if (it.bytes == NULL) return;
    if (drc_decode(it.bytes, it.length, 2, &geometry, &fault) == DRC_DONE) {
        test_later(&it, &geometry);
    } else {
        TELL(fault.kind == DRC_FAULT_Octahedral || fault.kind == DRC_FAULT_Prediction);
        it.profile = 3, fault = marked();
        if (drc_decode(it.bytes, it.length, 3, &geometry, &fault) != DRC_DONE) TELL(!"decoded in profile 3");
    }
    TELL(is_marked(&fault));
    if (!is_marked(&fault)) return;
    TELL((geometry.corners == NULL) == (geometry.shape.faces == 0));
    test_rooms(&it, &geometry);
    for (uint32_t method = 0; method <= 3; method++) {
        for (uint32_t predict = 0; predict <= DRC_PREDICT_SHAPE; predict++) {
            drc_options options = chosen(method, predict, method & 1);
            options.profile = it.profile == 3 || predict == DRC_PREDICT_SHAPE ? 3 : method & 2;
            test_again(&geometry, &options);
            test_recoded(&it, &geometry, &options);
        }
    }
    test_refused(&geometry);
    test_cuts(&it);
    test_declared(&it, &geometry);
    test_limits(&it, &geometry);
    test_failing(&it, &geometry);
    test_threads(&it, &geometry);
    drc_free(&geometry);
    __real_free(it.bytes);
}

int main(int count, char **words) {
    test_structs();
    test_names();
    test_begun();
    test_refusals();
    test_recoding();
    test_restoring();
    test_verifying();
    test_profiles();
    test_left_out();
    test_many_rows();
    test_squares();
    test_early();
    for (int k = 1; k < count; k++) test_stream(words[k]);
    printf("%lu passed, %lu failed\n", passed, failed);
    return failed != 0;
}
