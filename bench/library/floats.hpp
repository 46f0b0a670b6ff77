// Meshes of floats for profile_three.cpp and encoding_three.cpp: surfaces with normals, texture coordinates, both, and both cut along charts.
#include <draco/attributes/point_attribute.h>
#include <draco/mesh/mesh.h>

#include <cmath>

#include "decoding.hpp"

using Vector = draco::Vector3f;

static const uint32_t CHART = 32;

// What a mesh is: its name, whether it is closed, what its points have, and whether each chart has points of its own.
struct Kind {
    const char *name;
    bool is_torus, has_normals, has_coordinates, is_cut;
};

static const Kind KINDS[] = {
    {"grid.normals", false, true, false, false},   {"torus.normals", true, true, false, false},
    {"grid.coordinates", false, false, true, false}, {"torus.coordinates", true, false, true, false},
    {"grid.both", false, true, true, false},       {"torus.both", true, true, true, false},
    {"grid.cut", false, true, true, true},         {"torus.cut", true, true, true, true},
};

// A mesh as arrays of floats, and the points of faces.
struct Floats {
    vector<Vector> positions, normals;
    vector<draco::Vector2f> coordinates;
    vector<draco::Mesh::Face> faces;
};

// A draw from 0 to 1 for each place of a lattice.
static float draw(uint32_t i, uint32_t j) {
    uint64_t state = ((uint64_t)i << 32 | j) * 6364136223846793005u + 1442695040888963407u;
    state = (state ^ state >> 29) * 6364136223846793005u;
    return (state >> 40) / 16777216.0f;
}

static Vector position(const Kind &kind, uint32_t side, uint32_t i, uint32_t j) {
    if (!kind.is_torus) return Vector(i, j, 0.05f * side * std::sin(i * 0.09f) * std::cos(j * 0.07f) + draw(i, j));
    const float turn = 6.2831853f / side, a = i % side * turn, b = j % side * turn, thick = 1 + 0.002f * draw(i % side, j % side);
    const float far = 3 + thick * std::cos(b);
    return Vector(far * std::cos(a), far * std::sin(a), thick * std::sin(b));
}

// The points of a part of the lattice and its cells, two triangles each. Points at both ends of a closed surface are one, unless it is cut.
static void add_part(Floats &mesh, const Kind &kind, uint32_t side, uint32_t left, uint32_t low, uint32_t wide) {
    const uint32_t begin = mesh.positions.size(), count = kind.is_torus && !kind.is_cut ? wide : wide + 1;
    for (uint32_t j = 0; j < count; j++)
        for (uint32_t i = 0; i < count; i++) {
            mesh.positions.push_back(position(kind, side, left + i, low + j));
            mesh.coordinates.emplace_back((left + i * 0.9f) / side + 0.002f * std::sin(j * 0.2f), (low + j * 0.9f) / side);
        }
    auto number = [=](uint32_t i, uint32_t j) { return draco::PointIndex(begin + j % count * count + i % count); };
    for (uint32_t j = 0; j < wide; j++)
        for (uint32_t i = 0; i < wide; i++) {
            const auto a = number(i, j), b = number(i + 1, j), c = number(i, j + 1), d = number(i + 1, j + 1);
            mesh.faces.push_back({a, b, d});
            mesh.faces.push_back({a, d, c});
        }
}

// The normal of each point: the sum of those of its faces.
static void add_normals(Floats &mesh) {
    mesh.normals.assign(mesh.positions.size(), Vector(0, 0, 0));
    for (const draco::Mesh::Face &face : mesh.faces) {
        auto place = [&](int k) { return mesh.positions[face[k].value()]; };
        const Vector across = draco::CrossProduct(place(1) - place(0), place(2) - place(0));
        for (int k = 0; k < 3; k++) mesh.normals[face[k].value()] += across;
    }
    for (Vector &normal : mesh.normals) normal.Normalize();
}

static Floats floats_of(const Kind &kind, uint32_t side) {
    Floats mesh;
    const uint32_t wide = kind.is_cut ? CHART : side;
    for (uint32_t low = 0; low < side; low += wide)
        for (uint32_t left = 0; left < side; left += wide) add_part(mesh, kind, side, left, low, std::min({wide, side - left, side - low}));
    if (kind.has_normals) add_normals(mesh);
    return mesh;
}

template <class Row>
static void add_attribute(draco::Mesh &mesh, draco::GeometryAttribute::Type type, const vector<Row> &rows) {
    draco::GeometryAttribute attribute;
    attribute.Init(type, nullptr, Row::dimension, draco::DT_FLOAT32, false, sizeof(Row), 0);
    draco::PointAttribute *made = mesh.attribute(mesh.AddAttribute(attribute, true, rows.size()));
    for (size_t p = 0; p < rows.size(); p++) made->SetAttributeValue(draco::AttributeValueIndex(p), &rows[p]);
}

static const Kind &kind_of(const std::string &name) {
    for (const Kind &kind : KINDS)
        if (name == kind.name) return kind;
    fail("there is no mesh " + name);
}
