// Times encoding in profile 3 by libdrc beside libdraco, the library of Google's draco, of the same integers with the same predictions: octahedral
// normals by those of faces, texture coordinates by a projection, positions by one parallelogram. bench/library/encoding_three builds and runs it.
//
// usage: encoding_three TURNS SIDE [MESH METHOD]       the table, or one line of it
//        encoding_three stream WAY MESH METHOD SIDE    writes one stream to standard output
//        encoding_three work WAY MESH METHOD SIDE      the work of a process of its own
//
// MESH is one of floats.hpp, with SIDE cells each way; positions have 14 bits, normals 10 and texture coordinates 12. METHOD is eb or valence. The ways
// are `here`, libdrc from arrays of integers; `there`, libdraco from a mesh of its own, whose equal values and points are numbered alike before;
// `numbering`, the making of that mesh from the same arrays; and `square`, the part of `there` that makes octahedral integers of normals: its encoder
// takes normals as floats alone, and positions and texture coordinates as integers.
// A line for each mesh and method: mesh, method, faces, the bytes of both streams; nanoseconds of processor time a face of each way, the least of TURNS,
// which they take by turns, of `numbering` that of one turn; the medians of the turns' ratios, of `here` to `there`, and to what `there` takes without
// `square`; the least times of `here` and `there` of a surface of twice SIDE cells each way. Before it is timed, both streams are decoded by both
// libraries to the triangles that went in.
#include <draco/compression/attributes/normal_compression_utils.h>
#include <draco/compression/encode.h>

#include "floats.hpp"

static const int POSITION_BITS = 14, NORMAL_BITS = 10, COORDINATE_BITS = 12;
static const char *const METHODS[] = {"eb", "valence"};

using Attribute = draco::GeometryAttribute;

// A mesh as arrays of integers, point after point, and its normals as floats too.
struct Arrays {
    vector<drc_head> heads;
    vector<uint32_t> corners;
    vector<vector<int32_t>> columns; // of each attribute
    vector<int32_t> values;
    vector<Vector> normals;
    size_t points = 0, width = 0;
    size_t faces() const { return corners.size() / 3; }
};

// Values on a grid of so many bits.
template <class Row>
static vector<int32_t> on_grid(const vector<Row> &rows, int bits) {
    Row low = rows[0], high = rows[0];
    for (const Row &row : rows)
        for (int k = 0; k < Row::dimension; k++) low[k] = std::min(low[k], row[k]), high[k] = std::max(high[k], row[k]);
    float width = 0;
    for (int k = 0; k < Row::dimension; k++) width = std::max(width, high[k] - low[k]);
    vector<int32_t> numbers;
    for (const Row &row : rows)
        for (int k = 0; k < Row::dimension; k++) numbers.push_back(std::lround((row[k] - low[k]) / width * ((1 << bits) - 1)));
    return numbers;
}

static draco::OctahedronToolBox octahedron() {
    draco::OctahedronToolBox box;
    if (!box.SetQuantizationBits(NORMAL_BITS)) fail("there is no such octahedron");
    return box;
}

static vector<int32_t> on_square(const vector<Vector> &normals) {
    const draco::OctahedronToolBox box = octahedron();
    vector<int32_t> numbers(2 * normals.size());
    for (size_t k = 0; k < normals.size(); k++) box.FloatVectorToQuantizedOctahedralCoords(normals[k].data(), &numbers[2 * k], &numbers[2 * k + 1]);
    return numbers;
}

// The head of an attribute of floats, with bits of a quantisation or of an octahedron.
static void add_column(Arrays &arrays, uint8_t usage, uint8_t bits, uint8_t octahedral_bits, const vector<int32_t> &numbers) {
    drc_head head = {};
    head.usage = usage;
    head.dtype = 9;
    head.comps = numbers.size() / arrays.points;
    head.id = arrays.heads.size();
    head.bits = bits;
    head.octahedral_bits = octahedral_bits;
    const float range = 1;
    if (bits) memcpy(&head.range, &range, sizeof range);
    arrays.heads.push_back(head);
    arrays.columns.push_back(numbers);
    arrays.width += head.comps;
}

static Arrays arrays_of(const Kind &kind, uint32_t side) {
    const Floats floats = floats_of(kind, side);
    Arrays arrays;
    arrays.points = floats.positions.size();
    arrays.normals = floats.normals;
    for (const draco::Mesh::Face &face : floats.faces)
        for (int k = 0; k < 3; k++) arrays.corners.push_back(face[k].value());
    add_column(arrays, Attribute::POSITION, POSITION_BITS, 0, on_grid(floats.positions, POSITION_BITS));
    if (kind.has_normals) add_column(arrays, Attribute::NORMAL, 0, NORMAL_BITS, on_square(floats.normals));
    if (kind.has_coordinates) add_column(arrays, Attribute::TEX_COORD, COORDINATE_BITS, 0, on_grid(floats.coordinates, COORDINATE_BITS));
    for (size_t p = 0; p < arrays.points; p++)
        for (size_t k = 0; k < arrays.heads.size(); k++) {
            const auto begin = arrays.columns[k].begin() + p * arrays.heads[k].comps;
            arrays.values.insert(arrays.values.end(), begin, begin + arrays.heads[k].comps);
        }
    return arrays;
}

static uint64_t triangles_of(const Arrays &mesh) {
    return triangles(mesh.faces(), mesh.width, [&](size_t f, int k) { return &mesh.values[mesh.corners[3 * f + k] * mesh.width]; });
}

// libdrc.

static drc_stream encoded(const Arrays &mesh, const std::string &method) {
    drc_options options = {};
    options.method = method == "valence" ? DRC_METHOD_VALENCE : DRC_METHOD_EDGEBREAKER;
    options.predict = DRC_PREDICT_SHAPE;
    options.profile = 3;
    drc_stream stream;
    drc_fault fault;
    const uint32_t status = drc_encode(1, mesh.heads.data(), mesh.heads.size(), mesh.corners.data(), mesh.faces(), mesh.values.data(), mesh.values.size(),
                                       &options, &stream, &fault);
    if (status != DRC_DONE) fail("libdrc doesn't encode");
    return stream;
}

// libdraco.

static void add_integers(draco::Mesh &mesh, const drc_head &head, const vector<int32_t> &numbers) {
    draco::GeometryAttribute attribute;
    attribute.Init((Attribute::Type)head.usage, nullptr, head.comps, draco::DT_INT32, false, 4 * head.comps, 0);
    const size_t points = numbers.size() / head.comps;
    draco::PointAttribute *made = mesh.attribute(mesh.AddAttribute(attribute, true, points));
    for (size_t p = 0; p < points; p++) made->SetAttributeValue(draco::AttributeValueIndex(p), &numbers[p * head.comps]);
}

// The mesh as the encoder takes it: equal values of an attribute have one number, and equal points.
static std::unique_ptr<draco::Mesh> numbered(const Arrays &arrays) {
    std::unique_ptr<draco::Mesh> mesh(new draco::Mesh());
    mesh->set_num_points(arrays.points);
    mesh->SetNumFaces(arrays.faces());
    for (size_t f = 0; f < arrays.faces(); f++) {
        const uint32_t *corners = &arrays.corners[3 * f];
        mesh->SetFace(draco::FaceIndex(f), {draco::PointIndex(corners[0]), draco::PointIndex(corners[1]), draco::PointIndex(corners[2])});
    }
    for (size_t k = 0; k < arrays.heads.size(); k++) {
        if (arrays.heads[k].octahedral_bits)
            add_attribute(*mesh, Attribute::NORMAL, arrays.normals);
        else
            add_integers(*mesh, arrays.heads[k], arrays.columns[k]);
    }
    if (!mesh->DeduplicateAttributeValues()) fail("values aren't numbered");
    mesh->DeduplicatePointIds();
    return mesh;
}

// Encodes at the speed at which `draco_encoder` writes the method.
static std::string encoded_there(const draco::Mesh &mesh, const std::string &method) {
    const bool is_valence = method == "valence";
    draco::Encoder encoder;
    encoder.SetEncodingMethod(draco::MESH_EDGEBREAKER_ENCODING);
    encoder.SetSpeedOptions(is_valence ? 3 : 5, is_valence ? 3 : 5);
    encoder.options().SetGlobalInt("edgebreaker_method",
                                   is_valence ? draco::MESH_EDGEBREAKER_VALENCE_ENCODING : draco::MESH_EDGEBREAKER_STANDARD_ENCODING);
    encoder.SetAttributeQuantization(Attribute::NORMAL, NORMAL_BITS);
    encoder.SetAttributePredictionScheme(Attribute::POSITION, draco::MESH_PREDICTION_PARALLELOGRAM);
    encoder.SetAttributePredictionScheme(Attribute::NORMAL, draco::MESH_PREDICTION_GEOMETRIC_NORMAL);
    encoder.SetAttributePredictionScheme(Attribute::TEX_COORD, draco::MESH_PREDICTION_TEX_COORDS_PORTABLE);
    draco::EncoderBuffer buffer;
    if (!encoder.EncodeMeshToBuffer(mesh, &buffer).ok()) fail("libdraco doesn't encode");
    return std::string(buffer.data(), buffer.size());
}

// Works, each in a process of its own.

[[noreturn]] static void work(const std::string &way, const Kind &kind, const std::string &method, uint32_t side) {
    const Arrays arrays = arrays_of(kind, side);
    if (way == "numbering") answer([&] { numbered(arrays); });
    if (way == "here") answer([&] {
            drc_stream stream = encoded(arrays, method);
            drc_free_stream(&stream);
        });
    const auto mesh = numbered(arrays);
    if (way == "there") answer([&] { encoded_there(*mesh, method); });
    vector<Vector> normals(arrays.normals.begin(), arrays.normals.begin() + std::min<size_t>(arrays.normals.size(), mesh->num_points()));
    answer([&] { on_square(normals); });
}

static std::string stream_of(const std::string &way, const Kind &kind, const std::string &method, uint32_t side) {
    const Arrays arrays = arrays_of(kind, side);
    std::string bytes;
    if (way == "there") {
        bytes = encoded_there(*numbered(arrays), method);
    } else {
        drc_stream stream = encoded(arrays, method);
        bytes.assign((const char *)stream.bytes, stream.lengths.bytes);
        drc_free_stream(&stream);
    }
    drc_geometry mesh = decoded(bytes, 3);
    if (triangles_of(mesh) != triangles_of(arrays)) fail("libdrc gives other triangles");
    drc_free(&mesh);
    if (triangles_of(*decoded_there(bytes), arrays.width) != triangles_of(arrays)) fail("libdraco gives other triangles");
    return bytes;
}

static void write_line(const Kind &kind, const std::string &method, int turns, int side) {
    const size_t faces = 2 * (size_t)side * side, more_faces = 4 * faces;
    const std::string ours = stream_of("here", kind, method, side), theirs = stream_of("there", kind, method, side);
    const auto words = [&](const char *way, int side) { return vector<std::string>{"work", way, kind.name, method, std::to_string(side)}; };
    Process here(words("here", side)), there(words("there", side)), square(words("square", side)), numbering(words("numbering", side));
    Process more_here(words("here", 2 * side)), more_there(words("there", 2 * side));
    vector<double> least(5, 1e30), ratios, bare;
    for (int k = 0; k < turns; k++) {
        const vector<double> times = {here.turn(faces).time, there.turn(faces).time, kind.has_normals ? square.turn(faces).time : 0,
                                      more_here.turn(more_faces).time, more_there.turn(more_faces).time};
        for (size_t i = 0; i < times.size(); i++) least[i] = std::min(least[i], times[i]);
        ratios.push_back(times[0] / times[1]), bare.push_back(times[0] / (times[1] - times[2]));
    }
    printf("%s %s %zu %zu %zu %.2f %.2f %.2f %.2f %.3f %.3f %.2f %.2f\n", kind.name, method.c_str(), faces, ours.size(), theirs.size(), least[0], least[1],
           least[2], numbering.turn(faces).time, median(ratios), median(bare), least[3], least[4]);
    fflush(stdout);
}

int main(int count, char **words) {
    const std::string first = count > 1 ? words[1] : "";
    if (count == 6 && first == "work") work(words[2], kind_of(words[3]), words[4], atoi(words[5]));
    if (count == 6 && first == "stream") {
        const std::string stream = stream_of(words[2], kind_of(words[3]), words[4], atoi(words[5]));
        return fwrite(stream.data(), 1, stream.size(), stdout) != stream.size();
    }
    if (count != 3 && count != 5) fail("usage: encoding_three TURNS SIDE [MESH METHOD]");
    const int turns = atoi(words[1]), side = atoi(words[2]);
    if (count == 5) {
        write_line(kind_of(words[3]), words[4], turns, side);
        return 0;
    }
    for (const Kind &kind : KINDS)
        for (const char *method : METHODS) write_line(kind, method, turns, side);
    return 0;
}
