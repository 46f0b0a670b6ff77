/* libdrc: a codec for .drc files, compressed triangle meshes and point clouds (Draco Bitstream Specification 2.2).

   Every call answers a status, whatever it is passed within its types: decoding gives exactly what the bytes mean, or
   their first fault. No call keeps anything, writes to a stream or ends the process; calls on any number of threads need
   no lock, while none of them writes what another one uses. Each call, its statuses and how to link: docs/LIBRARY.md.

   An array is passed as a pointer and a number of items; where the number is 0 the pointer may be NULL. `fault` may be NULL: then
   it isn't told. So may `options`, which then choose nothing, `limits`, which then are none, `rows` of what is written, by which
   the map is left out, and what is freed. No other pointer may be NULL, and what a call writes may not overlap anything else that
   it is passed. For C99, C++11 and later, where size_t has 64 bits.

   A stream is read and written in a profile, 2 or 3, which says what it may have: with 3 also octahedral normals, and
   predictions of normals and of texture coordinates from positions, as Google's draco writes them. Where a stream means a
   geometry in profile 2, it means the same in 3. */
#ifndef DRC_H
#define DRC_H

#include <math.h>
#include <stddef.h>
#include <stdint.h>
#include <stdlib.h>
#include <string.h>

#if SIZE_MAX != UINT64_MAX
#error "drc.h: size_t has to have 64 bits"
#endif

#ifdef __cplusplus
extern "C" {
#endif

/* Of compilers that know attributes: the status of a call may not be passed over, and these arguments may not be NULL. */
#if defined(__GNUC__) || defined(__clang__)
#define DRC_STATUS __attribute__((warn_unused_result))
#define DRC_NEEDS(...) __attribute__((nonnull(__VA_ARGS__)))
#else
#define DRC_STATUS
#define DRC_NEEDS(...)
#endif

/* The version of the interface: of the libraries of one soname, a later one has all that an earlier one had. Version 3 is the
   first of libdrc.so.2: what reads a stream takes the profile, options have it too, and names of faults have more room. */
#define DRC_VERSION 3

/* The version of the release: that of the soname, of the interface, and of the release itself. */
#define DRC_RELEASE "2.3.0"

/* The most attributes of a geometry, the most components of one, and room for the name of any fault with its zero, also of
   kinds that come later. */
#define DRC_MAX_ATTRIBUTES 16
#define DRC_MAX_COMPONENTS 8
#define DRC_NAME_ROOM 32

/* What a call answers. */
enum {
    DRC_DONE = 0,
    DRC_BAD_ARGUMENT = 1, /* arguments that don't fit each other, or a number that names nothing */
    DRC_REFUSED = 2,      /* the input is refused: the fault says why */
    DRC_NO_MEMORY = 5,
    DRC_NOT_SAME = 6,     /* of `drc_verify` alone: the verdict says what differs first */
    DRC_NO_ROOM = 8,      /* an array is too short: the counts say what is needed */
    DRC_NO_ATTRIBUTE = 9  /* of `drc_attribute` alone: no attribute is the one that is asked for */
};

/* Why an input is refused. */
typedef struct drc_fault {
    uint32_t kind; /* one of the numbers below, DRC_FAULT_ */
    uint64_t at;   /* where it is: for a stream a number of bytes, unless the kind says otherwise */
} drc_fault;

/* What an attribute is. Floats, of data type 9, are quantised or octahedral. Value i of a quantised component with minimum m stands
   for m + i * range / (2^bits - 1). An octahedral attribute has two components: coordinates in the square of the octahedron, each
   0 to 2^octahedral_bits - 2. Where there is no quantisation, `bits`, `range` and `min` are 0 in what is decoded, and ignored in
   what is encoded; so are minima beyond the components. Streams of profile 3 may have octahedral attributes, and those of profile 2
   have none: in it they are refused, of what is encoded as DRC_FAULT_Octahedral at the number of the first. A head that is filled in
   begins as zeros, as by `drc_head head = {0}`: what isn't set then says nothing, and what is spare is 0, as it has to be. */
typedef struct drc_head {
    uint8_t usage;                    /* 0 position, 1 normal, 2 colour, 3 texture coordinate, 4 generic */
    uint8_t dtype;                    /* 1 int8, 2 uint8, 3 int16, 4 uint16, 5 int32, 6 uint32 (values up to 2^31 - 1),
                                         9 float32, quantised or octahedral */
    uint8_t comps;                    /* integers of one point, 1 to 8 */
    uint8_t normalized;               /* carried as it is */
    uint32_t id;                      /* the attribute's own number, carried as it is */
    uint8_t bits;                     /* bits of each integer of a quantised float, 1 to 30 */
    uint8_t octahedral_bits;          /* bits of the two coordinates of an octahedral attribute, 2 to 30; 0 where it isn't one */
    uint16_t spare;                   /* 0 */
    uint32_t range;                   /* the bit pattern of the range, a 32-bit float */
    uint32_t min[DRC_MAX_COMPONENTS]; /* the bit pattern of the minimum of each component, 32-bit floats */
} drc_head;

/* What a geometry is, without its arrays. */
typedef struct drc_shape {
    uint32_t mesh;                      /* 1 a mesh, 0 a cloud of points */
    uint32_t faces;                     /* triangles; a cloud has none */
    uint32_t points;
    uint32_t width;                     /* integers of a point: the sum of the components of its attributes */
    uint32_t attributes;                /* 1 to 16 */
    drc_head heads[DRC_MAX_ATTRIBUTES]; /* zeros behind the last attribute */
} drc_shape;

/* A decoded geometry with its arrays, which `drc_free` frees. One that begins as DRC_GEOMETRY_INIT may be freed before a call wrote it. */
typedef struct drc_geometry {
    drc_shape shape;
    uint32_t *corners; /* 3 * faces numbers of points, three for each face; NULL where there is no face */
    int32_t *values;   /* points * width integers, point after point, the attributes of a point in order; NULL without points */
} drc_geometry;

/* The most that is taken of what is decoded; 0 where the library's own limit alone holds. Limits that are filled in begin as zeros. */
typedef struct drc_limits {
    uint32_t faces;
    uint32_t points;
    uint32_t values; /* integers of all points */
    uint32_t spare;  /* 0 */
} drc_limits;

/* A text, whose bytes `drc_free_text` frees. One that begins as DRC_TEXT_INIT may be freed before a call wrote it. */
typedef struct drc_text {
    size_t length; /* without the zero behind it */
    char *bytes;
} drc_text;

/* What is chosen of an encoding. All zeros choose nothing: then a mesh is coded by Edgebreaker and a cloud sequentially,
   indices are plain, values are predicted by a parallelogram under Edgebreaker and by the entry before else, the walk is
   depth first, values are in symbol blocks, and the profile is 2. Octahedral values are predicted by normals of faces, by the entry
   before or not at all, where others are by parallelograms, by the entry before or not at all. Options that are filled in begin
   as zeros. */
typedef struct drc_options {
    uint32_t method;       /* DRC_METHOD_ */
    uint32_t index;        /* DRC_INDEX_, of a sequential mesh alone */
    uint32_t predict;      /* DRC_PREDICT_ */
    uint32_t walk;         /* DRC_WALK_, under Edgebreaker alone */
    uint32_t plain_values; /* 1: values as they are, and not in symbol blocks */
    uint32_t profile;      /* 2 or 3, and 0 is 2: that of what is written; of `drc_recode` also that in which the old stream is read */
    uint32_t spare[2];     /* zeros */
} drc_options;

enum { DRC_METHOD_SEQUENTIAL = 1, DRC_METHOD_EDGEBREAKER = 2, DRC_METHOD_VALENCE = 3 };
enum { DRC_INDEX_PLAIN = 1, DRC_INDEX_PACKED = 2 };
enum {
    DRC_PREDICT_NONE = 1,
    DRC_PREDICT_DIFFERENCE = 2,
    DRC_PREDICT_PARALLELOGRAM = 3,
    DRC_PREDICT_MULTI = 4,
    DRC_PREDICT_SHAPE = 5 /* from positions: octahedral attributes by normals of faces, texture coordinates by a projection, all others
                             by a parallelogram. It wants profile 3: in another it is no number of an option */
};
enum { DRC_WALK_DEPTH = 1, DRC_WALK_DEGREE = 2 };

/* A row of a map, one for each face of a stream: corner k of that face is corner k + turn, modulo 3, of face `number` of
   what was encoded. For a cloud one for each point: the point, and turn 0. */
typedef struct drc_row {
    uint32_t number;
    uint32_t turn;
} drc_row;

/* How much there is of a stream and its map. */
typedef struct drc_lengths {
    size_t bytes;
    size_t rows;
} drc_lengths;

/* An encoded stream and its map, which `drc_free_stream` frees. One that begins as DRC_STREAM_INIT may be freed before a call wrote it. */
typedef struct drc_stream {
    drc_lengths lengths;
    uint8_t *bytes;
    drc_row *rows; /* NULL where there is no row */
} drc_stream;

/* What a geometry, a stream or a text begins as: zeros, without arrays. */
#ifdef __cplusplus
#define DRC_GEOMETRY_INIT {}
#define DRC_STREAM_INIT {}
#define DRC_TEXT_INIT {}
#else
#define DRC_GEOMETRY_INIT {{0, 0, 0, 0, 0, {{0, 0, 0, 0, 0, 0, 0, 0, 0, {0}}}}, NULL, NULL}
#define DRC_STREAM_INIT {{0, 0}, NULL, NULL}
#define DRC_TEXT_INIT {0, NULL}
#endif

/* Whether a stream is a geometry by a map: the first of the numbers below, DRC_VERDICT_, that applies. */
typedef struct drc_verdict {
    uint32_t kind;
    uint64_t at; /* what it says it of, counted from 0 */
} drc_verdict;

enum {
    DRC_VERDICT_SAME = 0,  /* it is; `at` is 0 */
    DRC_VERDICT_HEADS = 1, /* the heads of attributes differ, or one is a mesh and the other a cloud; `at` is 0 */
    DRC_VERDICT_ROWS = 2,  /* the map has `at` rows, and not both have as many faces (points of clouds) */
    DRC_VERDICT_ROW = 3,   /* row `at` is the first that is wrong: it names no face (point), or one that an earlier row names, its turn
                              is above 2 (above 0 for a cloud), or a corner (the point) has other integers */
    DRC_VERDICT_PAIR = 4   /* with surfaces: side `at` = 3 * face + k of the stream is the first that is glued otherwise, or is free in
                              one of the two alone */
};

/* The version of the interface that the library has. */
uint32_t drc_version(void);

/* Writes the name of a kind of faults and a zero behind it: DRC_DONE; DRC_BAD_ARGUMENT where no kind has this number;
   DRC_NO_ROOM. */
uint32_t drc_fault_name(uint32_t kind, char *name, size_t room);

/* Tells what a stream, read in this profile, declares before its data, without taking memory: the shape has whether it is a mesh, and
   the numbers of faces and points, of an Edgebreaker mesh that of its vertices, of which seams make more points; the rest is zeros.
   DRC_DONE; DRC_BAD_ARGUMENT where `profile` is neither 2 nor 3; DRC_REFUSED where the header or what is declared has a fault, which
   is the stream's first. */
uint32_t drc_declared(const uint8_t *bytes, size_t length, uint32_t profile, drc_shape *shape, drc_fault *fault) DRC_STATUS DRC_NEEDS(4);

/* Decodes a stream, read in this profile, into arrays that `drc_free` frees: DRC_DONE; DRC_BAD_ARGUMENT where `profile` is neither 2
   nor 3; DRC_REFUSED with its first fault; DRC_NO_MEMORY. The geometry is written only where it is done, the fault only where it
   is refused. Bytes after the stream's end are ignored. A stream may have any length, here and below: DRC_FAULT_InputLimit is of the
   program alone. */
uint32_t drc_decode(const uint8_t *bytes, size_t length, uint32_t profile, drc_geometry *geometry, drc_fault *fault)
    DRC_STATUS DRC_NEEDS(4);

/* The same where a stream has no more than these limits. Else it is refused, at the number that is too great: DRC_FAULT_FaceLimit or
   DRC_FAULT_PointLimit of what is declared, as `drc_declared` tells it, before memory is taken; these or DRC_FAULT_ValueLimit of the
   geometry, once it is decoded. DRC_BAD_ARGUMENT also where what is spare in the limits isn't 0. */
uint32_t drc_decode_within(const uint8_t *bytes, size_t length, uint32_t profile, const drc_limits *limits, drc_geometry *geometry,
                           drc_fault *fault) DRC_STATUS DRC_NEEDS(5);

/* Decodes a stream into arrays of the caller, with room for so many faces, of three numbers each, and so many values:
   DRC_DONE; DRC_BAD_ARGUMENT where `profile` is neither 2 nor 3; DRC_NO_ROOM where one of them is too short, and the shape says
   what is needed; DRC_REFUSED with the first fault; DRC_NO_MEMORY. The arrays are written only where it is done. */
uint32_t drc_decode_into(const uint8_t *bytes, size_t length, uint32_t profile, uint32_t *corners, size_t faces, int32_t *values,
                         size_t count, drc_shape *shape, drc_fault *fault) DRC_STATUS DRC_NEEDS(8);

/* Writes what the program's `drc info` writes of a stream, read in this profile: lines of text. DRC_DONE; DRC_BAD_ARGUMENT where
   `profile` is neither 2 nor 3; DRC_REFUSED with the stream's first fault; DRC_NO_MEMORY. */
uint32_t drc_info(const uint8_t *bytes, size_t length, uint32_t profile, drc_text *text, drc_fault *fault) DRC_STATUS DRC_NEEDS(4);

/* Encodes a mesh (1) or a cloud (0), which has no faces: the heads of its attributes, three numbers of points for each face,
   and the integers of all points. The stream and its map are freed by `drc_free_stream`. DRC_DONE; DRC_BAD_ARGUMENT where
   `mesh` is another number, a cloud has faces, the values aren't whole rows, an option has no such number in its profile, or what is
   spare in a head or in the options isn't 0 (where there are more than 16 heads, or their components sum to 0, rows aren't looked
   at: then DRC_REFUSED says so); DRC_REFUSED with the first fault: of the arrays, then DRC_FAULT_Octahedral at the first octahedral
   attribute where the profile isn't 3, then of the encoding; DRC_NO_MEMORY. */
uint32_t drc_encode(uint32_t mesh, const drc_head *heads, size_t attributes, const uint32_t *corners, size_t faces,
                    const int32_t *values, size_t count, const drc_options *options, drc_stream *stream, drc_fault *fault)
    DRC_STATUS DRC_NEEDS(9);

/* The same into arrays of the caller; DRC_NO_ROOM where one of them is too short, and the lengths say what is needed. Where `rows` is
   NULL or has no room, the map is left out. */
uint32_t drc_encode_into(uint32_t mesh, const drc_head *heads, size_t attributes, const uint32_t *corners, size_t faces,
                         const int32_t *values, size_t count, const drc_options *options, uint8_t *bytes, size_t room,
                         drc_row *rows, size_t row_room, drc_lengths *lengths, drc_fault *fault) DRC_STATUS DRC_NEEDS(13);

/* Codes a stream in another way: the new stream means the geometry of the old one, by its map, whose rows name faces
   (points) of the old one, which is read in the profile of the options. Both are freed by `drc_free_stream`. DRC_DONE;
   DRC_BAD_ARGUMENT where an option has no such number in its profile, or what is spare isn't 0; DRC_REFUSED with the first fault of
   the old stream, else of the encoding; DRC_NO_MEMORY. */
uint32_t drc_recode(const uint8_t *bytes, size_t length, const drc_options *options, drc_stream *stream, drc_fault *fault)
    DRC_STATUS DRC_NEEDS(4);

/* The same into arrays of the caller; DRC_NO_ROOM where one of them is too short, and the lengths say what is needed. Where `rows` is
   NULL or has no room, the map is left out. */
uint32_t drc_recode_into(const uint8_t *bytes, size_t length, const drc_options *options, uint8_t *written, size_t room,
                         drc_row *rows, size_t row_room, drc_lengths *lengths, drc_fault *fault) DRC_STATUS DRC_NEEDS(8);

/* Writes a stream in the order before a map, of a mesh (1) or a cloud (0), that was given with it: a sequential stream with the
   faces (points) of what was encoded, in their order, each beginning with its first corner. It is freed by `drc_free_stream` and
   has no map: its rows are NULL, and their number 0. The old stream is read in this profile. DRC_DONE; DRC_BAD_ARGUMENT where `mesh`
   is another number, or `profile` neither 2 nor 3; DRC_REFUSED with the first fault of the stream, of the map, then of the
   encoding; DRC_NO_MEMORY. */
uint32_t drc_restore(uint32_t mesh, const drc_row *rows, size_t row_count, const uint8_t *bytes, size_t length, uint32_t profile,
                     drc_stream *stream, drc_fault *fault) DRC_STATUS DRC_NEEDS(7);

/* The same into an array of the caller; DRC_NO_ROOM where it is too short, and the lengths say what is needed. */
uint32_t drc_restore_into(uint32_t mesh, const drc_row *rows, size_t row_count, const uint8_t *bytes, size_t length,
                          uint32_t profile, uint8_t *written, size_t room, drc_lengths *lengths, drc_fault *fault)
    DRC_STATUS DRC_NEEDS(9);

/* Whether a stream, read in this profile, means a geometry, given by arrays as for `drc_encode`, by the rows of a map: with
   `surface` 1 besides whether it is glued as that mesh is. Of what encoding uses it uses, with `surface` 1, how a mesh is paired and
   how pairs are renumbered, and nothing else. DRC_DONE where it is; DRC_NOT_SAME where it isn't; the verdict says which in both
   cases. DRC_BAD_ARGUMENT where `mesh` or `surface` is neither 0 nor 1, `profile` neither 2 nor 3, a cloud has faces, the values
   aren't whole rows, or what is spare in a head isn't 0; DRC_REFUSED with the first fault of the arrays, then of the stream, then
   with `surface` 1 why there is no surface to compare; DRC_NO_MEMORY. */
uint32_t drc_verify(uint32_t mesh, const drc_head *heads, size_t attributes, const uint32_t *corners, size_t faces,
                    const int32_t *values, size_t count, const drc_row *rows, size_t row_count, const uint8_t *bytes,
                    size_t length, uint32_t profile, uint32_t surface, drc_verdict *verdict, drc_fault *fault) DRC_STATUS DRC_NEEDS(14);

/* Frees the arrays of a geometry that `drc_decode` wrote; of NULL none. */
static inline void drc_free(drc_geometry *geometry) {
    if (geometry == NULL) return;
    free(geometry->corners);
    free(geometry->values);
    geometry->corners = NULL;
    geometry->values = NULL;
}

/* Frees the bytes and rows that `drc_encode`, `drc_recode` or `drc_restore` wrote; of NULL none. */
static inline void drc_free_stream(drc_stream *stream) {
    if (stream == NULL) return;
    free(stream->bytes);
    free(stream->rows);
    stream->bytes = NULL;
    stream->rows = NULL;
}

/* Frees the bytes of a text that `drc_info` wrote; of NULL none. */
static inline void drc_free_text(drc_text *text) {
    if (text == NULL) return;
    free(text->bytes);
    text->bytes = NULL;
}

/* The kinds of faults: behind DRC_FAULT_ stands the word that the program's notes have. New ones come last. */
enum {
    DRC_FAULT_Magic = 0,         /* The first five bytes aren't `DRACO` */
    DRC_FAULT_GeometryType = 1,  /* The geometry type is neither cloud nor mesh */
    DRC_FAULT_Version = 2,       /* The version isn't the one of the geometry type */
    DRC_FAULT_KdCloud = 3,       /* A cloud of the kd-tree method */
    DRC_FAULT_Method = 4,        /* No method of the geometry type */
    DRC_FAULT_Metadata = 5,      /* The metadata flag is set */
    DRC_FAULT_Short = 6,         /* An item isn't whole */
    DRC_FAULT_Long = 7,          /* A varint is too long or its value doesn't fit */
    DRC_FAULT_FaceLimit = 8,     /* Too many faces */
    DRC_FAULT_PointLimit = 9,    /* Too many points or vertices */
    DRC_FAULT_AttrLimit = 10,    /* Too many attributes */
    DRC_FAULT_ValueLimit = 11,   /* Too many coded values */
    DRC_FAULT_TableLimit = 12,   /* Too many symbols of one probability table */
    DRC_FAULT_InputLimit = 13,   /* Too many bytes of input */
    DRC_FAULT_EmptyTable = 14,   /* A probability table without symbols */
    DRC_FAULT_Run = 15,          /* A run of zero probabilities passes the end of its table */
    DRC_FAULT_Sum = 16,          /* The probabilities don't sum to the precision */
    DRC_FAULT_BadStart = 17,     /* The coded bytes don't hold a first state */
    DRC_FAULT_BadProb = 18,      /* The probability of zero is 0 */
    DRC_FAULT_Scheme = 19,       /* No scheme of symbol blocks */
    DRC_FAULT_Length = 20,       /* A bit length out of range */
    DRC_FAULT_IndexMethod = 21,  /* No method of sequential indices */
    DRC_FAULT_IndexRange = 22,   /* An index isn't below the number of points */
    DRC_FAULT_Traversal = 23,    /* No accepted traversal of Edgebreaker */
    DRC_FAULT_Count = 24,        /* A declared number above what it counts from */
    DRC_FAULT_EventDelta = 25,   /* A split event's numbers are out of range */
    DRC_FAULT_NoActive = 26,     /* No active side is left */
    DRC_FAULT_Gone = 27,         /* A side that is needed is glued already */
    DRC_FAULT_Alone = 28,        /* C at a side that is alone in its loop */
    DRC_FAULT_SamePoint = 29,    /* S at two sides one of which starts where the other ends */
    DRC_FAULT_EventOrder = 30,   /* A split event whose source is passed */
    DRC_FAULT_Taken = 31,        /* Two split events for one symbol */
    DRC_FAULT_Loop = 32,         /* An interior start face whose loop isn't of three sides */
    DRC_FAULT_FaceCount = 33,    /* Another number of faces than declared */
    DRC_FAULT_VertexCount = 34,  /* More vertices than declared */
    DRC_FAULT_Degenerate = 35,   /* A triangle with two equal vertices */
    DRC_FAULT_ContextEmpty = 36, /* A valence context without a symbol left */
    DRC_FAULT_BadSymbol = 37,    /* No Edgebreaker symbol */
    DRC_FAULT_NoAttribute = 38,  /* No attribute */
    DRC_FAULT_DataId = 39,       /* An attribute data number that is out of range or used twice */
    DRC_FAULT_Element = 40,      /* No element type that fits */
    DRC_FAULT_Walk = 41,         /* No accepted walk */
    DRC_FAULT_AttrType = 42,     /* No attribute type */
    DRC_FAULT_DataType = 43,     /* No accepted data type */
    DRC_FAULT_Components = 44,   /* A number of components out of range */
    DRC_FAULT_Generic = 45,      /* Unquantised values */
    DRC_FAULT_Octahedral = 46,   /* Octahedral normals */
    DRC_FAULT_Coding = 47,       /* A coding that doesn't go with the data type */
    DRC_FAULT_Prediction = 48,   /* No accepted prediction */
    DRC_FAULT_Transform = 49,    /* No accepted prediction transform */
    DRC_FAULT_ByteWidth = 50,    /* A number of bytes per value out of range */
    DRC_FAULT_FlagCount = 51,    /* Too many flags of a prediction */
    DRC_FAULT_WrapRange = 52,    /* A range that corrections can't wrap in */
    DRC_FAULT_FlagsShort = 53,   /* A prediction needs a flag where none is left */
    DRC_FAULT_ValueRange = 54,   /* A value outside its data type */
    DRC_FAULT_QuantBits = 55,    /* A number of quantisation bits out of range */
    DRC_FAULT_PlyMagic = 56,     /* The first line isn't `ply` */
    DRC_FAULT_PlyFormat = 57,    /* No `format ascii 1.0` line where it is due */
    DRC_FAULT_PlyHeader = 58,    /* A header line that isn't one */
    DRC_FAULT_PlyType = 59,      /* No accepted property type */
    DRC_FAULT_PlyElement = 60,   /* An element or property that doesn't stand where it may */
    DRC_FAULT_PlyAttr = 61,      /* A comment on attributes that breaks its rules */
    DRC_FAULT_PlyRow = 62,       /* Another number of tokens than a row has */
    DRC_FAULT_PlyNumber = 63,    /* A token that is no number of its type */
    DRC_FAULT_PlyFace = 64,      /* A face that isn't a triangle */
    DRC_FAULT_PlyIndex = 65,     /* A vertex index out of range */
    DRC_FAULT_PlyShort = 66,     /* The text ends too early */
    DRC_FAULT_PlyRest = 67,      /* Text after the last row */
    DRC_FAULT_Choice = 68,       /* An option that doesn't go with the method */
    DRC_FAULT_Empty = 69,        /* Nothing to encode */
    DRC_FAULT_NoPosition = 70,   /* The first attribute isn't the position */
    DRC_FAULT_Range = 71,        /* Values too far apart for a prediction */
    DRC_FAULT_MapForm = 72,      /* A line of a map's text that isn't one */
    DRC_FAULT_MapKind = 73,      /* A map of points for a mesh, or of faces for a cloud */
    DRC_FAULT_MapCount = 74,     /* A map of another number of rows than the geometry has */
    DRC_FAULT_BadMap = 75,       /* A row of a map that can't be turned back */
    DRC_FAULT_KdMagic = 76,      /* The first five bytes of a kd-tree file aren't `KDPTS` */
    DRC_FAULT_KdVersion = 77,    /* The version of a kd-tree file isn't 1 */
    DRC_FAULT_KdLimit = 78,      /* Too many values of a kd-tree file */
    DRC_FAULT_KdBits = 79,       /* A component of more than 32 bits */
    DRC_FAULT_KdSplit = 80,      /* More points in a lower box than its box has */
    DRC_FAULT_KdMesh = 81,       /* A mesh where a cloud is expected */
    DRC_FAULT_Projection = 82,   /* A projection of texture coordinates that doesn't fit its numbers */
};

/* Floats of integers, and integers of floats: `drc_attribute`, `drc_float_count`, `drc_floats` and `drc_quantise` are inline here, and no
   calls of the library. They compute with floats of 32 bits, each operation rounded by itself and in the order of Google's draco:
   what they give is bit for bit what its library gives, also where the compiler may fuse products with sums (-march=native,
   -ffp-contract=fast). It isn't with options that let it reorder or approximate operations, or take other floats, as -ffast-math,
   -Ofast, -funsafe-math-optimizations and -mfpmath=387, nor where a program rounds otherwise than to the nearest, or flushes
   subnormal floats to zero.

   They use square roots of <math.h>: link with -lm. Of a geometry they use the shape and the values alone, so one that the caller filled
   in does as well as a decoded one. They answer whatever they are passed within its types, as the calls do, and NULL where something is
   needed is DRC_BAD_ARGUMENT. Names that begin with drc_private_ are no part of the interface. */

/* The numbers of usages and of data types in heads, and what stands for any usage or any id. */
enum { DRC_USAGE_POSITION = 0, DRC_USAGE_NORMAL = 1, DRC_USAGE_COLOUR = 2, DRC_USAGE_TEXTURE = 3, DRC_USAGE_GENERIC = 4 };
enum {
    DRC_TYPE_INT8 = 1,
    DRC_TYPE_UINT8 = 2,
    DRC_TYPE_INT16 = 3,
    DRC_TYPE_UINT16 = 4,
    DRC_TYPE_INT32 = 5,
    DRC_TYPE_UINT32 = 6,
    DRC_TYPE_FLOAT32 = 9
};
#define DRC_ANY (-1)

/* Finds the first attribute with this usage and this id, each of which may be DRC_ANY. Writes its number, and the place of its first
   integer among those of a point; what isn't wanted may be NULL. DRC_DONE; DRC_NO_ATTRIBUTE where there is none; DRC_BAD_ARGUMENT
   where the shape is NULL or has more than 16 attributes. Nothing is written but where it is done. */
static inline uint32_t drc_attribute(const drc_shape *shape, int64_t usage, int64_t id, uint32_t *number, uint32_t *column) {
    uint32_t at = 0;
    if (shape == NULL || shape->attributes > DRC_MAX_ATTRIBUTES) return DRC_BAD_ARGUMENT;
    for (uint32_t k = 0; k < shape->attributes; k++) {
        const drc_head *head = &shape->heads[k];
        if ((usage == DRC_ANY || usage == head->usage) && (id == DRC_ANY || id == head->id)) {
            if (number != NULL) *number = k;
            if (column != NULL) *column = at;
            return DRC_DONE;
        }
        at += head->comps;
    }
    return DRC_NO_ATTRIBUTE;
}

/* How many floats a point has of an attribute: three of an octahedral one, a unit vector; of another one for each component. */
static inline size_t drc_float_count(const drc_head *head) {
    return head == NULL ? 0 : head->octahedral_bits != 0 ? 3 : head->comps;
}

/* The float of a bit pattern, as heads have them. */
static inline float drc_private_float(uint32_t pattern) {
    float value;
    memcpy(&value, &pattern, sizeof value);
    return value;
}

/* The bit pattern of a float. */
static inline uint32_t drc_private_pattern(float value) {
    uint32_t pattern;
    memcpy(&pattern, &value, sizeof pattern);
    return pattern;
}

/* Whether a float is finite. */
static inline int drc_private_is_finite(float value) {
    return (drc_private_pattern(value) & 0x7f800000u) != 0x7f800000u;
}

/* A product that is rounded before anything is added to it: no compiler fuses it with a sum. */
static inline float drc_private_product(float a, float b) {
    volatile float product = a * b;
    return product;
}

/* The same of doubles. */
static inline double drc_private_wide_product(double a, double b) {
    volatile double product = a * b;
    return product;
}

/* Whether a head says what integers stand for. */
static inline int drc_private_has_meaning(const drc_head *head) {
    if (head->comps < 1 || head->comps > DRC_MAX_COMPONENTS) return 0;
    if (head->dtype != DRC_TYPE_FLOAT32)
        return head->octahedral_bits == 0 && head->dtype >= DRC_TYPE_INT8 && head->dtype <= DRC_TYPE_UINT32;
    if (head->octahedral_bits == 0) return head->bits >= 1 && head->bits <= 30;
    return head->comps == 2 && head->octahedral_bits >= 2 && head->octahedral_bits <= 30;
}

/* An attribute in a geometry and beside an array of floats. A point has integers from `integers` + its number * `width` on, and `count`
   floats from its number * `stride` on. */
typedef struct drc_private_place {
    drc_head head;
    size_t points, width, count, stride;
    int32_t *integers;
} drc_private_place;

/* Whether a geometry has such an attribute, and floats `stride` apart don't lie over one another; then where it stands. */
static inline int drc_private_find(const drc_geometry *geometry, uint32_t number, size_t stride, drc_private_place *place) {
    uint32_t width = 0, column = 0;
    if (geometry == NULL || geometry->shape.attributes > DRC_MAX_ATTRIBUTES || number >= geometry->shape.attributes) return 0;
    for (uint32_t k = 0; k < geometry->shape.attributes; k++) {
        if (k == number) column = width;
        width += geometry->shape.heads[k].comps;
    }
    place->head = geometry->shape.heads[number];
    place->points = geometry->shape.points;
    place->width = width;
    place->count = drc_float_count(&place->head);
    place->stride = stride == 0 ? place->count : stride;
    place->integers = place->points == 0 || geometry->values == NULL ? NULL : geometry->values + column;
    return width == geometry->shape.width && drc_private_has_meaning(&place->head) && place->stride >= place->count &&
           (place->points == 0 || place->integers != NULL);
}

/* Whether an array of so many floats has those of all points. */
static inline int drc_private_is_held(const drc_private_place *place, size_t room) {
    return place->points == 0 || (room >= place->count && (room - place->count) / place->stride >= place->points - 1);
}

/* The unit vector of two coordinates in the square of the octahedron: y and z from -1 to 1, and what is left of 1 is x. Where x is
   negative, y and z are folded along the edges of the octahedron. */
static inline void drc_private_vector(unsigned bits, const int32_t *pair, float *vector) {
    const float scale = 2.0f / (float)((1u << bits) - 2);
    float y = drc_private_product((float)pair[0], scale) - 1.0f, z = drc_private_product((float)pair[1], scale) - 1.0f;
    const float x = 1.0f - fabsf(y) - fabsf(z), fold = x < 0 ? -x : 0.0f;
    y += y < 0 ? fold : -fold;
    z += z < 0 ? fold : -fold;
    const float square = drc_private_product(x, x) + drc_private_product(y, y) + drc_private_product(z, z);
    const float inverse = (double)square < 1e-6 ? 0.0f : 1.0f / sqrtf(square);
    vector[0] = x * inverse;
    vector[1] = y * inverse;
    vector[2] = z * inverse;
}

/* The greatest integer of a type. */
static inline float drc_private_greatest(uint8_t dtype) {
    switch (dtype) {
    case DRC_TYPE_INT8: return (float)INT8_MAX;
    case DRC_TYPE_UINT8: return (float)UINT8_MAX;
    case DRC_TYPE_INT16: return (float)INT16_MAX;
    case DRC_TYPE_UINT16: return (float)UINT16_MAX;
    case DRC_TYPE_INT32: return (float)INT32_MAX;
    default: return (float)UINT32_MAX;
    }
}

/* The floats of one point. */
static inline void drc_private_floats(const drc_head *head, const int32_t *integers, float *floats) {
    if (head->octahedral_bits != 0) {
        drc_private_vector(head->octahedral_bits, integers, floats);
    } else if (head->dtype == DRC_TYPE_FLOAT32) {
        const float step = drc_private_float(head->range) / (float)((1u << head->bits) - 1);
        for (int j = 0; j < head->comps; j++)
            floats[j] = drc_private_product((float)integers[j], step) + drc_private_float(head->min[j]);
    } else {
        const float unit = head->normalized != 0 ? drc_private_greatest(head->dtype) : 1.0f;
        for (int j = 0; j < head->comps; j++) floats[j] = (float)integers[j] / unit;
    }
}

/* Writes what the integers of an attribute stand for: of each point `drc_float_count` floats, those of point p from p * stride on; stride 0
   is that count, so that all stand one after another. Quantised integers stand for floats of their grid, octahedral ones for unit
   vectors; others for themselves, and where they are normalized for fractions of the greatest of their type. DRC_DONE;
   DRC_BAD_ARGUMENT where there is no such attribute, its head or the shape isn't one of a geometry, or the stride is shorter than the
   floats of a point; DRC_NO_ROOM where the array, of `room` floats, is too short. Nothing is written but where it is done, and then
   nothing between the floats of two points. */
static inline uint32_t drc_floats(const drc_geometry *geometry, uint32_t number, float *floats, size_t room, size_t stride) {
    drc_private_place place;
    if (!drc_private_find(geometry, number, stride, &place) || (floats == NULL && place.points != 0)) return DRC_BAD_ARGUMENT;
    if (!drc_private_is_held(&place, room)) return DRC_NO_ROOM;
    for (size_t p = 0; p < place.points; p++)
        drc_private_floats(&place.head, place.integers + p * place.width, floats + p * place.stride);
    return DRC_DONE;
}

/* The range of a grid of so many steps: the extent of its floats, and 1 where that is 0. Where there would be too many steps in a unit for
   a float, it is the least range where there aren't. */
static inline float drc_private_range(float extent, float steps) {
    const float least = steps / drc_private_float(0x7f7fffffu);
    if (!(extent > 0)) return 1.0f;
    while (!drc_private_is_finite(steps / extent)) extent = drc_private_float(drc_private_pattern(extent < least ? least : extent) + 1);
    return extent;
}

/* Puts a grid into a head, from the least float of each component on and as wide as the widest of them. 0 where that is no float. */
static inline int drc_private_grid(drc_private_place *place, const float *floats) {
    drc_head *head = &place->head;
    float extent = 0;
    for (unsigned j = 0; j < DRC_MAX_COMPONENTS; j++) {
        const int has_floats = j < head->comps && place->points != 0;
        float least = has_floats ? floats[j] : 0.0f, greatest = least;
        for (size_t p = 1; has_floats && p < place->points; p++) {
            const float value = floats[p * place->stride + j];
            if (value < least) least = value;
            if (value > greatest) greatest = value;
        }
        head->min[j] = drc_private_pattern(least);
        if (greatest - least > extent) extent = greatest - least;
    }
    head->range = drc_private_pattern(drc_private_range(extent, (float)((1u << head->bits) - 1)));
    return drc_private_is_finite(extent);
}

/* Two coordinates as the only ones of their direction: on the border of the square two pairs have the same one, and all its corners. */
static inline void drc_private_canonical(int32_t most, int32_t *pair) {
    const int32_t s = pair[0], t = pair[1], centre = most / 2;
    if ((s == 0 && (t == 0 || t == most)) || (s == most && t == 0)) {
        pair[0] = pair[1] = most;
    } else if ((s == 0 && t > centre) || (s == most && t < centre)) {
        pair[1] = most - t;
    } else if ((t == most && s < centre) || (t == 0 && s > centre)) {
        pair[0] = most - s;
    }
}

/* The coordinates, in the square of the octahedron, of the direction of a vector; of one of next to no length those of the first axis. */
static inline void drc_private_pair(unsigned bits, const float *vector, int32_t *pair) {
    const int32_t most = (int32_t)((1u << bits) - 2), centre = most / 2;
    const double a = (double)vector[0], b = (double)vector[1], c = (double)vector[2], length = fabs(a) + fabs(b) + fabs(c);
    const double scale = length > 1e-6 ? 1.0 / length : 0.0, share = length > 1e-6 ? a * scale : 1.0;
    const int32_t x = (int32_t)floor(drc_private_wide_product(share, centre) + 0.5);
    int32_t y = (int32_t)floor(drc_private_wide_product(b * scale, centre) + 0.5), z = centre - abs(x) - abs(y);
    if (z < 0) {
        y += y > 0 ? z : -z;
        z = 0;
    }
    if (c * scale < 0) z = -z;
    if (x >= 0) {
        pair[0] = y + centre;
        pair[1] = z + centre;
    } else {
        pair[0] = y < 0 ? abs(z) : most - abs(z);
        pair[1] = z < 0 ? abs(y) : most - abs(y);
    }
    drc_private_canonical(most, pair);
}

/* The integers of one point. */
static inline void drc_private_integers(const drc_head *head, const float *floats, int32_t *integers) {
    if (head->octahedral_bits != 0) {
        drc_private_pair(head->octahedral_bits, floats, integers);
    } else {
        const float inverse = (float)((1u << head->bits) - 1) / drc_private_float(head->range);
        for (int j = 0; j < head->comps; j++) {
            const float steps = drc_private_product(floats[j] - drc_private_float(head->min[j]), inverse);
            integers[j] = (int32_t)floorf(steps + 0.5f);
        }
    }
}

/* Whether all floats are numbers. */
static inline int drc_private_are_finite(const drc_private_place *place, const float *floats) {
    for (size_t p = 0; p < place->points; p++)
        for (size_t j = 0; j < place->count; j++)
            if (!drc_private_is_finite(floats[p * place->stride + j])) return 0;
    return 1;
}

/* Writes the integers of floats into the values of a geometry that is to be encoded, for an attribute of DRC_TYPE_FLOAT32. Of each point
   `drc_float_count` floats are read, those of point p from p * stride on; stride 0 is that count. Where the head has `octahedral_bits`,
   and two components, the integers are coordinates of the directions of three floats; where the magnitudes of these sum to 10^-6 at
   most, it is the direction of the first axis. Else they are steps of a grid of `bits` bits, which begins at the least float of each
   component and is as wide as the widest component: it is written to `range` and `min` of the head. DRC_DONE; DRC_BAD_ARGUMENT where
   there is no such attribute, its head or the shape isn't one of a geometry, the stride is shorter than the floats of a point, there
   are fewer floats, `count`, than are read, or a float or the extent of a component isn't finite. Nothing is written but where it is
   done. */
static inline uint32_t drc_quantise(drc_geometry *geometry, uint32_t number, const float *floats, size_t count, size_t stride) {
    drc_private_place place;
    if (!drc_private_find(geometry, number, stride, &place) || (floats == NULL && place.points != 0)) return DRC_BAD_ARGUMENT;
    if (place.head.dtype != DRC_TYPE_FLOAT32 || !drc_private_is_held(&place, count)) return DRC_BAD_ARGUMENT;
    if (!drc_private_are_finite(&place, floats)) return DRC_BAD_ARGUMENT;
    if (place.head.octahedral_bits == 0) {
        if (!drc_private_grid(&place, floats)) return DRC_BAD_ARGUMENT;
        geometry->shape.heads[number] = place.head;
    }
    for (size_t p = 0; p < place.points; p++)
        drc_private_integers(&place.head, floats + p * place.stride, place.integers + p * place.width);
    return DRC_DONE;
}

#ifdef __cplusplus
}
#endif

#endif
