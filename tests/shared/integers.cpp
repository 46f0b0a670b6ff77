// Prints what libdraco, the library of Google's draco, decodes of a stream before its integers become floats, as a PLY text of `drc dec`. tests/tool builds
// and runs it.
//
// usage: integers FILE.drc    or  integers -    for a stream on standard input
//
// The stream is decoded twice: once with the transforms of all attributes skipped, for the integers, and once for the heads as the stream has them. An
// attribute that is octahedral there has two integers and the line `comment drc octa`. The points of a mesh that was coded by Edgebreaker are the distinct
// rows in the order in which the corners have them first, as in `drc dec`; other points stay as they are. Ends with status 2 where libdraco refuses the
// stream, and with 3 where it has what no text of `drc dec` has: floats that aren't quantised, types of other widths, metadata.
#include <draco/attributes/attribute_octahedron_transform.h>
#include <draco/attributes/attribute_quantization_transform.h>
#include <draco/compression/decode.h>

#include <cstdio>
#include <cstdlib>
#include <cstring>
#include <map>
#include <memory>
#include <string>
#include <vector>

using std::string;
using std::vector;
using Type = draco::GeometryAttribute::Type;

[[noreturn]] static void end(int status, const string &why) {
    fprintf(stderr, "integers: %s\n", why.c_str());
    exit(status);
}

static string read_all(const char *name) {
    FILE *file = strcmp(name, "-") ? fopen(name, "rb") : stdin;
    if (!file) end(1, string("can't read ") + name);
    string bytes;
    char piece[1 << 16];
    for (size_t got; (got = fread(piece, 1, sizeof piece, file)) > 0;) bytes.append(piece, got);
    return bytes;
}

static std::unique_ptr<draco::PointCloud> decoded(const string &bytes, bool is_mesh, bool are_skipped) {
    draco::Decoder decoder;
    for (Type type : {Type::POSITION, Type::NORMAL, Type::COLOR, Type::TEX_COORD, Type::GENERIC})
        if (are_skipped) decoder.SetSkipAttributeTransform(type);
    draco::DecoderBuffer buffer;
    buffer.Init(bytes.data(), bytes.size());
    if (is_mesh) {
        auto mesh = decoder.DecodeMeshFromBuffer(&buffer);
        if (!mesh.ok()) end(2, mesh.status().error_msg_string());
        return std::move(mesh).value();
    }
    auto cloud = decoder.DecodePointCloudFromBuffer(&buffer);
    if (!cloud.ok()) end(2, cloud.status().error_msg_string());
    return std::move(cloud).value();
}

// The names of types in a text; the first is no type.
static const char *const TYPES[] = {"", "char", "uchar", "short", "ushort", "int", "uint"};
static const int FLOAT_TYPE = 9;

// What an attribute is, by its heads with and without the transform.
struct Head {
    int usage, dtype, comps, normalized, id, quantised_bits = 0, octahedral_bits = 0;
    float range = 0;
    vector<float> minima;
};

static Head head_of(const draco::PointAttribute &whole, const draco::PointAttribute &skipped) {
    Head head;
    head.usage = whole.attribute_type();
    head.dtype = whole.data_type();
    head.comps = skipped.num_components();
    head.normalized = whole.normalized();
    head.id = whole.unique_id();
    draco::AttributeOctahedronTransform octahedron;
    draco::AttributeQuantizationTransform grid;
    const draco::AttributeTransformData *data = skipped.GetAttributeTransformData();
    const auto kind = data ? data->transform_type() : draco::ATTRIBUTE_INVALID_TRANSFORM;
    if (kind == draco::ATTRIBUTE_OCTAHEDRON_TRANSFORM && octahedron.InitFromAttribute(skipped)) {
        head.octahedral_bits = octahedron.quantization_bits();
    } else if (kind == draco::ATTRIBUTE_QUANTIZATION_TRANSFORM && grid.InitFromAttribute(skipped)) {
        head.quantised_bits = grid.quantization_bits();
        head.range = grid.range();
        head.minima = grid.min_values();
    } else if (head.dtype < 1 || head.dtype > 6) {
        end(3, "floats that aren't quantised, or a type that no text has");
    }
    return head;
}

static unsigned pattern(float value) {
    unsigned bits;
    memcpy(&bits, &value, sizeof bits);
    return bits;
}

// The names of columns: those of the format for the first head of a usage that has as many components, but for octahedral heads.
static vector<string> names_of(const vector<Head> &heads) {
    const std::map<std::pair<int, int>, vector<string>> given = {{{0, 3}, {"x", "y", "z"}},
                                                                 {{1, 3}, {"nx", "ny", "nz"}},
                                                                 {{2, 3}, {"red", "green", "blue"}},
                                                                 {{2, 4}, {"red", "green", "blue", "alpha"}},
                                                                 {{3, 2}, {"s", "t"}}};
    vector<string> names;
    bool is_taken[5] = {};
    for (size_t k = 0; k < heads.size(); k++) {
        const auto found = given.find({heads[k].usage, heads[k].comps});
        const bool is_first = found != given.end() && !heads[k].octahedral_bits && !is_taken[heads[k].usage];
        if (is_first) is_taken[heads[k].usage] = true;
        for (int j = 0; j < heads[k].comps; j++) names.push_back(is_first ? found->second[j] : "a" + std::to_string(k) + "_" + std::to_string(j));
    }
    return names;
}

static void print_heads(const vector<Head> &heads) {
    for (size_t k = 0; k < heads.size(); k++) {
        const Head &head = heads[k];
        printf("comment drc attr %zu %d %d %d %d %d\n", k, head.usage, head.dtype, head.comps, head.normalized, head.id);
        if (head.octahedral_bits) printf("comment drc octa %zu %d\n", k, head.octahedral_bits);
        if (head.quantised_bits) {
            printf("comment drc quant %zu %d %08x", k, head.quantised_bits, pattern(head.range));
            for (float minimum : head.minima) printf(" %08x", pattern(minimum));
            printf("\n");
        }
    }
}

int main(int count, char **words) {
    if (count != 2) end(1, "usage: integers FILE.drc");
    const string bytes = read_all(words[1]);
    draco::DecoderBuffer buffer;
    buffer.Init(bytes.data(), bytes.size());
    const auto kind = draco::Decoder::GetEncodedGeometryType(&buffer);
    if (!kind.ok()) end(2, kind.status().error_msg_string());
    const bool is_mesh = kind.value() == draco::TRIANGULAR_MESH;
    const bool is_edgebreaker = is_mesh && bytes[8] == 1;
    const auto whole = decoded(bytes, is_mesh, false), skipped = decoded(bytes, is_mesh, true);
    if (whole->GetMetadata()) end(3, "metadata");

    vector<Head> heads;
    size_t width = 0;
    for (int k = 0; k < whole->num_attributes(); k++) {
        heads.push_back(head_of(*whole->attribute(k), *skipped->attribute(k)));
        width += heads.back().comps;
    }
    vector<int32_t> table(skipped->num_points() * width);
    for (size_t p = 0; p < skipped->num_points(); p++) {
        int32_t *row = &table[p * width];
        for (int k = 0; k < skipped->num_attributes(); row += heads[k].comps, k++) {
            const draco::PointAttribute &it = *skipped->attribute(k);
            if (!it.ConvertValue<int32_t>(it.mapped_index(draco::PointIndex(p)), heads[k].comps, row)) end(3, "a value that 32 bits don't hold");
        }
    }

    const draco::Mesh *mesh = is_mesh ? static_cast<const draco::Mesh *>(skipped.get()) : nullptr;
    const size_t faces = mesh ? mesh->num_faces() : 0;
    vector<uint32_t> corners;
    for (size_t f = 0; f < faces; f++)
        for (int k = 0; k < 3; k++) corners.push_back(mesh->face(draco::FaceIndex(f))[k].value());
    size_t points = skipped->num_points();
    if (is_edgebreaker) {
        std::map<vector<int32_t>, uint32_t> numbers;
        vector<int32_t> kept;
        for (uint32_t &corner : corners) {
            const vector<int32_t> row(&table[corner * width], &table[corner * width] + width);
            const auto found = numbers.emplace(row, numbers.size());
            if (found.second) kept.insert(kept.end(), row.begin(), row.end());
            corner = found.first->second;
        }
        points = numbers.size();
        table = kept;
    }

    printf("ply\nformat ascii 1.0\n");
    print_heads(heads);
    printf("element vertex %zu\n", points);
    const vector<string> names = names_of(heads);
    size_t column = 0;
    for (const Head &head : heads)
        for (int j = 0; j < head.comps; j++) printf("property %s %s\n", head.dtype == FLOAT_TYPE ? "int" : TYPES[head.dtype], names[column++].c_str());
    if (is_mesh) printf("element face %zu\nproperty list uchar int vertex_indices\n", faces);
    printf("end_header\n");
    for (size_t p = 0; p < points; p++)
        for (size_t j = 0; j < width; j++) printf("%d%c", table[p * width + j], j + 1 < width ? ' ' : '\n');
    for (size_t f = 0; f < faces; f++) printf("3 %u %u %u\n", corners[3 * f], corners[3 * f + 1], corners[3 * f + 2]);
    return 0;
}
