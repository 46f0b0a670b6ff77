// Compares what is inline in drc.h, by shown.c, with libdraco, the library of Google's draco, bit for bit: grids and integers of floats,
// floats of integers, unit vectors and their coordinates, fractions of normalized integers. tests/library builds and runs
// it. usage: beside_draco. The last line printed is 'N passed, M failed'; the exit status is 0 where M is 0.
#include <draco/attributes/attribute_quantization_transform.h>
#include <draco/attributes/point_attribute.h>
#include <draco/compression/attributes/normal_compression_utils.h>
#include <drc.h>

#include <cmath>
#include <cstdio>
#include <cstring>
#include <random>
#include <vector>

using std::vector;
using Index = draco::AttributeValueIndex;
using Type = draco::GeometryAttribute::Type;

extern "C" {
uint32_t shown_floats(const drc_geometry *geometry, uint32_t number, float *floats, size_t room, size_t stride);
uint32_t shown_quantise(drc_geometry *geometry, uint32_t number, const float *floats, size_t count, size_t stride);
}

static unsigned long passed, failed;
static std::mt19937 draw(7);

static void tell(bool holds, const char *what, int bits, int comps) {
    holds ? passed++ : failed++;
    if (!holds) printf("FAILED: %s (%d bits, %d components)\n", what, bits, comps);
}

template <class T>
static bool is_same(const vector<T> &one, const vector<T> &other) {
    return one.size() == other.size() && memcmp(one.data(), other.data(), one.size() * sizeof(T)) == 0;
}

// A geometry of one attribute, over the integers of its points.
static drc_geometry geometry_of(unsigned dtype, int comps, vector<int32_t> *integers) {
    drc_geometry geometry;
    memset(&geometry, 0, sizeof geometry);
    geometry.shape.points = static_cast<uint32_t>(integers->size() / comps);
    geometry.shape.width = comps;
    geometry.shape.attributes = 1;
    geometry.shape.heads[0].dtype = static_cast<uint8_t>(dtype);
    geometry.shape.heads[0].comps = static_cast<uint8_t>(comps);
    geometry.values = integers->data();
    return geometry;
}

// The same of octahedral integers.
static drc_geometry square_of(int bits, vector<int32_t> *pairs) {
    drc_geometry geometry = geometry_of(DRC_TYPE_FLOAT32, 2, pairs);
    geometry.shape.heads[0].octahedral_bits = static_cast<uint8_t>(bits);
    return geometry;
}

// Whether the floats of a geometry are these.
static bool gives(const drc_geometry &geometry, const vector<float> &due) {
    vector<float> came(due.size());
    return shown_floats(&geometry, 0, came.data(), came.size(), 0) == DRC_DONE && is_same(came, due);
}

static draco::PointAttribute attribute_of(draco::DataType type, int comps, size_t points, bool is_normalized) {
    draco::PointAttribute attribute;
    attribute.Init(Type::GENERIC, static_cast<int8_t>(comps), type, is_normalized, points);
    attribute.SetIdentityMapping();
    return attribute;
}

// Floats on a grid: the grid, the integers, and the floats that come back. Left out are extents of which libdraco has an infinite number of
// steps in a unit.
static void compare_grid(const vector<float> &floats, int comps, int bits) {
    const size_t points = floats.size() / comps;
    draco::PointAttribute given = attribute_of(draco::DT_FLOAT32, comps, points, false);
    for (uint32_t p = 0; p < points; p++) given.SetAttributeValue(Index(p), &floats[p * comps]);
    draco::AttributeQuantizationTransform grid;
    if (!grid.ComputeParameters(given, bits) || !std::isfinite(static_cast<float>((1u << bits) - 1) / grid.range())) return;
    const auto portable = grid.InitTransformedAttribute(given, static_cast<int>(points));
    grid.TransformAttribute(given, {}, portable.get());
    vector<int32_t> theirs(floats.size()), ours(floats.size());
    for (uint32_t p = 0; p < points; p++) portable->GetValue(Index(p), &theirs[p * comps]);

    drc_geometry geometry = geometry_of(DRC_TYPE_FLOAT32, comps, &ours);
    drc_head *head = &geometry.shape.heads[0];
    head->bits = static_cast<uint8_t>(bits);
    const bool is_done = shown_quantise(&geometry, 0, floats.data(), floats.size(), 0) == DRC_DONE;
    const float range = grid.range();
    tell(is_done && memcmp(&range, &head->range, 4) == 0, "the range", bits, comps);
    tell(memcmp(grid.min_values().data(), head->min, 4 * comps) == 0, "the minima", bits, comps);
    tell(is_same(ours, theirs), "the integers", bits, comps);

    draco::PointAttribute back = attribute_of(draco::DT_FLOAT32, comps, points, false);
    vector<float> due(floats.size());
    const bool is_read = grid.InverseTransformAttribute(*portable, &back);
    memcpy(due.data(), back.GetAddress(Index(0)), 4 * due.size());
    tell(is_read && gives(geometry, due), "the floats", bits, comps);
}

static void compare_grids() {
    const float scales[] = {1e-38f, 1e-30f, 1e-3f, 1, 1000, 3e7f, 1e30f};
    for (int bits = 1; bits <= 30; bits++) {
        for (float scale : scales) {
            for (int comps = 1; comps <= DRC_MAX_COMPONENTS; comps++) {
                std::normal_distribution<float> normal(0, scale);
                vector<float> floats(40 * comps);
                for (float &value : floats) value = normal(draw);
                compare_grid(floats, comps, bits);
                for (float &value : floats) value = std::round(value / scale * 4) * scale / 4; // ties, and zeros of both signs
                compare_grid(floats, comps, bits);
                compare_grid(vector<float>(3 * comps, scale), comps, bits);
            }
        }
    }
}

// The coordinates of vectors.
static void compare_coordinates(int bits, const vector<float> &vectors) {
    draco::OctahedronToolBox square;
    square.SetQuantizationBits(bits);
    vector<int32_t> theirs(vectors.size() / 3 * 2), ours(theirs.size());
    for (size_t p = 0; p < vectors.size() / 3; p++)
        square.FloatVectorToQuantizedOctahedralCoords(&vectors[3 * p], &theirs[2 * p], &theirs[2 * p + 1]);
    drc_geometry geometry = square_of(bits, &ours);
    const bool is_done = shown_quantise(&geometry, 0, vectors.data(), vectors.size(), 0) == DRC_DONE;
    tell(is_done && is_same(ours, theirs), "coordinates", bits, 2);
}

// Unit vectors of coordinates, and the coordinates of these: all of few bits; of more the border, the axes and a draw.
static void compare_vectors(int bits) {
    const int32_t most = (1 << bits) - 2;
    vector<int32_t> line{0, 1, most / 2 - 1, most / 2, most / 2 + 1, most - 1, most}, pairs;
    for (int32_t k = 0; bits <= 7 && k <= most; k++) line.push_back(k);
    for (int k = 0; bits > 7 && k < 60; k++) line.push_back(std::uniform_int_distribution<int32_t>(0, most)(draw));
    for (int32_t s : line)
        for (int32_t t : line) pairs.insert(pairs.end(), {s, t});
    draco::OctahedronToolBox square;
    square.SetQuantizationBits(bits);
    vector<float> due(pairs.size() / 2 * 3);
    for (size_t p = 0; p < pairs.size() / 2; p++)
        square.QuantizedOctahedralCoordsToUnitVector(pairs[2 * p], pairs[2 * p + 1], &due[3 * p]);
    tell(gives(square_of(bits, &pairs), due), "unit vectors", bits, 2);
    compare_coordinates(bits, due);
}

// Vectors of all lengths: drawn, on axes and planes and diagonals, with zeros of both signs, and of no length.
static vector<float> directions() {
    vector<float> vectors;
    for (float a : {-1.f, -0.5f, -0.f, 0.f, 0.5f, 1.f})
        for (float b : {-1.f, -0.25f, -0.f, 0.f, 0.75f, 1.f})
            for (float c : {-1.f, -1e-7f, -0.f, 0.f, 1e-7f, 1.f})
                for (float length : {1.f, 3e38f, 1e-6f, 1e-7f, 1e-45f}) vectors.insert(vectors.end(), {a * length, b * length, c * length});
    std::normal_distribution<float> normal;
    std::uniform_real_distribution<float> exponent(-30, 30);
    for (int k = 0; k < 3000; k++) {
        const float length = k % 2 ? 1 : std::pow(10.f, exponent(draw));
        vectors.insert(vectors.end(), {normal(draw) * length, normal(draw) * length, normal(draw) * length});
    }
    return vectors;
}

// Integers of one type as floats, and as fractions.
template <class T>
static void compare_integers(unsigned dtype, draco::DataType type, int64_t low, int64_t high) {
    for (int is_normalized = 0; is_normalized <= 1; is_normalized++) {
        for (int comps = 1; comps <= DRC_MAX_COMPONENTS; comps++) {
            vector<int32_t> integers(40 * comps);
            for (int32_t &it : integers) it = static_cast<int32_t>(std::uniform_int_distribution<int64_t>(low, high)(draw));
            integers[0] = static_cast<int32_t>(low), integers[comps] = static_cast<int32_t>(high);
            draco::PointAttribute given = attribute_of(type, comps, 40, is_normalized);
            vector<float> due(integers.size());
            for (uint32_t p = 0; p < 40; p++) {
                T row[DRC_MAX_COMPONENTS];
                for (int j = 0; j < comps; j++) row[j] = static_cast<T>(integers[p * comps + j]);
                given.SetAttributeValue(Index(p), row);
                given.ConvertValue<float>(Index(p), static_cast<int8_t>(comps), &due[p * comps]);
            }
            drc_geometry geometry = geometry_of(dtype, comps, &integers);
            geometry.shape.heads[0].normalized = static_cast<uint8_t>(is_normalized);
            tell(gives(geometry, due), is_normalized ? "fractions" : "integers as floats", static_cast<int>(dtype), comps);
        }
    }
}

int main() {
    compare_grids();
    const vector<float> vectors = directions();
    for (int bits = 2; bits <= 30; bits++) {
        compare_vectors(bits);
        compare_coordinates(bits, vectors);
    }
    compare_integers<int8_t>(DRC_TYPE_INT8, draco::DT_INT8, INT8_MIN, INT8_MAX);
    compare_integers<uint8_t>(DRC_TYPE_UINT8, draco::DT_UINT8, 0, UINT8_MAX);
    compare_integers<int16_t>(DRC_TYPE_INT16, draco::DT_INT16, INT16_MIN, INT16_MAX);
    compare_integers<uint16_t>(DRC_TYPE_UINT16, draco::DT_UINT16, 0, UINT16_MAX);
    compare_integers<int32_t>(DRC_TYPE_INT32, draco::DT_INT32, INT32_MIN, INT32_MAX);
    compare_integers<uint32_t>(DRC_TYPE_UINT32, draco::DT_UINT32, 0, INT32_MAX);
    printf("%lu passed, %lu failed\n", passed, failed);
    return failed != 0;
}
