/* What is inline in drc.h as calls of a library, which is compiled in several ways: for beside_draco.cpp and for tests/python. */
#include <drc.h>

#ifdef __cplusplus
extern "C" {
#endif
uint32_t shown_attribute(const drc_shape *shape, int64_t usage, int64_t id, uint32_t *number, uint32_t *column);
uint32_t shown_floats(const drc_geometry *geometry, uint32_t number, float *floats, size_t room, size_t stride);
uint32_t shown_quantise(drc_geometry *geometry, uint32_t number, const float *floats, size_t count, size_t stride);

uint32_t shown_attribute(const drc_shape *shape, int64_t usage, int64_t id, uint32_t *number, uint32_t *column) {
    return drc_attribute(shape, usage, id, number, column);
}

uint32_t shown_floats(const drc_geometry *geometry, uint32_t number, float *floats, size_t room, size_t stride) {
    return drc_floats(geometry, number, floats, room, stride);
}

uint32_t shown_quantise(drc_geometry *geometry, uint32_t number, const float *floats, size_t count, size_t stride) {
    return drc_quantise(geometry, number, floats, count, stride);
}
#ifdef __cplusplus
}
#endif
