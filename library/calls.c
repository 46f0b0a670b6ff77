/* The calls of drc.h that take a pointer which may be left out, each over the proved call of its name: where it is NULL, a place for a
   fault of their own is passed, options that choose nothing, or limits that are none. A map with no place to go has no room. Nothing
   else is done here. */
#include "drc.h"

/* The proved calls, as ./build-library renames them. */
uint32_t proved_drc_declared(const uint8_t *bytes, size_t length, uint32_t profile, drc_shape *shape, drc_fault *fault);
uint32_t proved_drc_decode(const uint8_t *bytes, size_t length, uint32_t profile, drc_geometry *geometry, drc_fault *fault);
uint32_t proved_drc_decode_within(const uint8_t *bytes, size_t length, uint32_t profile, const drc_limits *limits, drc_geometry *geometry,
                                  drc_fault *fault);
uint32_t proved_drc_decode_into(const uint8_t *bytes, size_t length, uint32_t profile, uint32_t *corners, size_t faces, int32_t *values,
                                size_t count, drc_shape *shape, drc_fault *fault);
uint32_t proved_drc_info(const uint8_t *bytes, size_t length, uint32_t profile, drc_text *text, drc_fault *fault);
uint32_t proved_drc_encode(uint32_t mesh, const drc_head *heads, size_t attributes, const uint32_t *corners, size_t faces,
                           const int32_t *values, size_t count, const drc_options *options, drc_stream *stream, drc_fault *fault);
uint32_t proved_drc_encode_into(uint32_t mesh, const drc_head *heads, size_t attributes, const uint32_t *corners, size_t faces,
                                const int32_t *values, size_t count, const drc_options *options, uint8_t *bytes, size_t room,
                                drc_row *rows, size_t row_room, drc_lengths *lengths, drc_fault *fault);
uint32_t proved_drc_recode(const uint8_t *bytes, size_t length, const drc_options *options, drc_stream *stream, drc_fault *fault);
uint32_t proved_drc_recode_into(const uint8_t *bytes, size_t length, const drc_options *options, uint8_t *written, size_t room,
                                drc_row *rows, size_t row_room, drc_lengths *lengths, drc_fault *fault);
uint32_t proved_drc_restore(uint32_t mesh, const drc_row *rows, size_t row_count, const uint8_t *bytes, size_t length, uint32_t profile,
                            drc_stream *stream, drc_fault *fault);
uint32_t proved_drc_restore_into(uint32_t mesh, const drc_row *rows, size_t row_count, const uint8_t *bytes, size_t length,
                                 uint32_t profile, uint8_t *written, size_t room, drc_lengths *lengths, drc_fault *fault);
uint32_t proved_drc_verify(uint32_t mesh, const drc_head *heads, size_t attributes, const uint32_t *corners, size_t faces,
                           const int32_t *values, size_t count, const drc_row *rows, size_t row_count, const uint8_t *bytes,
                           size_t length, uint32_t profile, uint32_t surface, drc_verdict *verdict, drc_fault *fault);

static const drc_options nothing_chosen = {0, 0, 0, 0, 0, 0, {0, 0}};
static const drc_limits no_limits = {0, 0, 0, 0};

/* What a call is passed: what its caller passed, or else what stands for it. */
#define OPTIONS (options != NULL ? options : &nothing_chosen)
#define LIMITS (limits != NULL ? limits : &no_limits)
#define ROW_ROOM (rows != NULL ? row_room : 0)
#define FAULT (fault != NULL ? fault : &(drc_fault){0, 0})

uint32_t drc_declared(const uint8_t *bytes, size_t length, uint32_t profile, drc_shape *shape, drc_fault *fault) {
    return proved_drc_declared(bytes, length, profile, shape, FAULT);
}

uint32_t drc_decode(const uint8_t *bytes, size_t length, uint32_t profile, drc_geometry *geometry, drc_fault *fault) {
    return proved_drc_decode(bytes, length, profile, geometry, FAULT);
}

uint32_t drc_decode_within(const uint8_t *bytes, size_t length, uint32_t profile, const drc_limits *limits, drc_geometry *geometry,
                           drc_fault *fault) {
    return proved_drc_decode_within(bytes, length, profile, LIMITS, geometry, FAULT);
}

uint32_t drc_decode_into(const uint8_t *bytes, size_t length, uint32_t profile, uint32_t *corners, size_t faces, int32_t *values,
                         size_t count, drc_shape *shape, drc_fault *fault) {
    return proved_drc_decode_into(bytes, length, profile, corners, faces, values, count, shape, FAULT);
}

uint32_t drc_info(const uint8_t *bytes, size_t length, uint32_t profile, drc_text *text, drc_fault *fault) {
    return proved_drc_info(bytes, length, profile, text, FAULT);
}

uint32_t drc_encode(uint32_t mesh, const drc_head *heads, size_t attributes, const uint32_t *corners, size_t faces,
                    const int32_t *values, size_t count, const drc_options *options, drc_stream *stream, drc_fault *fault) {
    return proved_drc_encode(mesh, heads, attributes, corners, faces, values, count, OPTIONS, stream, FAULT);
}

uint32_t drc_encode_into(uint32_t mesh, const drc_head *heads, size_t attributes, const uint32_t *corners, size_t faces,
                         const int32_t *values, size_t count, const drc_options *options, uint8_t *bytes, size_t room,
                         drc_row *rows, size_t row_room, drc_lengths *lengths, drc_fault *fault) {
    return proved_drc_encode_into(mesh, heads, attributes, corners, faces, values, count, OPTIONS, bytes, room, rows, ROW_ROOM, lengths,
                                  FAULT);
}

uint32_t drc_recode(const uint8_t *bytes, size_t length, const drc_options *options, drc_stream *stream, drc_fault *fault) {
    return proved_drc_recode(bytes, length, OPTIONS, stream, FAULT);
}

uint32_t drc_recode_into(const uint8_t *bytes, size_t length, const drc_options *options, uint8_t *written, size_t room,
                         drc_row *rows, size_t row_room, drc_lengths *lengths, drc_fault *fault) {
    return proved_drc_recode_into(bytes, length, OPTIONS, written, room, rows, ROW_ROOM, lengths, FAULT);
}

uint32_t drc_restore(uint32_t mesh, const drc_row *rows, size_t row_count, const uint8_t *bytes, size_t length, uint32_t profile,
                     drc_stream *stream, drc_fault *fault) {
    return proved_drc_restore(mesh, rows, row_count, bytes, length, profile, stream, FAULT);
}

uint32_t drc_restore_into(uint32_t mesh, const drc_row *rows, size_t row_count, const uint8_t *bytes, size_t length,
                          uint32_t profile, uint8_t *written, size_t room, drc_lengths *lengths, drc_fault *fault) {
    return proved_drc_restore_into(mesh, rows, row_count, bytes, length, profile, written, room, lengths, FAULT);
}

uint32_t drc_verify(uint32_t mesh, const drc_head *heads, size_t attributes, const uint32_t *corners, size_t faces,
                    const int32_t *values, size_t count, const drc_row *rows, size_t row_count, const uint8_t *bytes,
                    size_t length, uint32_t profile, uint32_t surface, drc_verdict *verdict, drc_fault *fault) {
    return proved_drc_verify(mesh, heads, attributes, corners, faces, values, count, rows, row_count, bytes, length, profile, surface,
                             verdict, FAULT);
}
