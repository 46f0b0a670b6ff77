// Times libdrc beside libdraco, the library of Google's draco, on the same meshes; each decodes in a process of its own. bench/library/times builds and
// runs it.
//
// usage: library TURNS SIDE SMALL
//
// The meshes are those of `drc gen`: a grid, a torus, a mesh with a seam round each cell and one with holes, of SIDE cells each way (the one
// with holes of more, so that each has about as many faces), and SMALL meshes of these kinds, of about 500 faces each; and the grid `coated`, with
// normals, texture coordinates and colours beside its positions. Positions are declared as quantised floats. For each mesh and method a line: the mesh, the method, its faces, and then nanoseconds of processor
// time a face, each the least of TURNS turns in which the libraries take turns:
//   decoding   by libdrc; by libdraco, which leaves out the transform from integers to floats; by libdrc without room for the
//              arrays, which is all of it but handing them out
//   encoding   by libdrc from arrays; by libdraco from a mesh of its own, whose equal values and points are numbered alike
//              before, as its encoder takes them; by libdrc of a mesh that is refused where its arrays have been copied, and of one
//              that is refused just before: the difference is the copies of the arrays
//   numbering  the making of libdraco's mesh from the same arrays, with equal values and points numbered alike: of one turn
// and the bytes of both streams, and of decoding and of encoding the median of the turns' ratios, libdrc's time over libdraco's. Each
// stream is decoded by both libraries before, and has to have the triangles that went in.
#include <draco/compression/encode.h>

#include <functional>

#include "decoding.hpp"

// A mesh as arrays: heads, the points of faces, and integers point after point.
struct Arrays {
    vector<drc_head> heads;
    vector<uint32_t> corners;
    vector<int32_t> values;
    size_t width = 0;
    size_t faces() const { return corners.size() / 3; }
    size_t points() const { return values.size() / width; }
};

// The meshes.

// Draws of ten bits from a seed, as `drc gen` has them.
struct Draws {
    uint64_t state;
    uint32_t next() { return (state = state * 6364136223846793005u + 1442695040888963407u) >> 54; }
};

static drc_head position_head() {
    drc_head head = {};
    head.dtype = 9;
    head.comps = 3;
    head.bits = 11;
    const float range = 2047;
    memcpy(&head.range, &range, sizeof range);
    return head;
}

// An attribute of quantised floats of this usage beside the positions.
static drc_head quantised_head(uint8_t usage, uint8_t comps, uint8_t bits, uint32_t id) {
    drc_head head = position_head();
    head.usage = usage;
    head.comps = comps;
    head.bits = bits;
    head.id = id;
    return head;
}

static drc_head label_head() {
    drc_head head = {};
    head.usage = 4;
    head.dtype = 2;
    head.comps = 1;
    head.id = 1;
    return head;
}

static void add_cell(Arrays &mesh, uint32_t a, uint32_t b, uint32_t c, uint32_t d) {
    for (uint32_t corner : {a, b, d, a, d, c}) mesh.corners.push_back(corner);
}

// The cells of a lattice of `wide` points each way, whose numbers are taken modulo `wide`; with holes, cells of two odd numbers are
// left out.
static Arrays lattice(uint32_t side, uint32_t wide, bool has_holes, uint64_t seed) {
    Arrays mesh;
    Draws draws = {seed};
    mesh.heads = {position_head()};
    mesh.width = 3;
    for (uint32_t j = 0; j < wide; j++)
        for (uint32_t i = 0; i < wide; i++)
            for (uint32_t value : {i, j, draws.next()}) mesh.values.push_back(value);
    auto number = [wide](uint32_t i, uint32_t j) { return j % wide * wide + i % wide; };
    for (uint32_t j = 0; j < side; j++)
        for (uint32_t i = 0; i < side; i++) {
            bool is_hole = has_holes && i % 2 == 1 && j % 2 == 1 && i + 1 < side && j + 1 < side;
            if (!is_hole) add_cell(mesh, number(i, j), number(i + 1, j), number(i, j + 1), number(i + 1, j + 1));
        }
    return mesh;
}

// Cells that each have four points for themselves, with a label.
static Arrays seams(uint32_t side, uint64_t seed) {
    Arrays mesh;
    Draws draws = {seed};
    mesh.heads = {position_head(), label_head()};
    mesh.width = 4;
    for (uint32_t k = 0; k < side * side; k++) {
        uint32_t i = k % side, j = k / side, label = draws.next() % 256;
        for (uint32_t corner = 0; corner < 4; corner++)
            for (uint32_t value : {i + corner % 2, j + corner / 2, 0u, label}) mesh.values.push_back(value);
        add_cell(mesh, 4 * k, 4 * k + 1, 4 * k + 2, 4 * k + 3);
    }
    return mesh;
}

// A grid whose points have a normal, texture coordinates and a colour too, each without seams. The normals are declared as generic, since
// libdraco predicts those of usage normal in ways of their own alone.
static Arrays coated(uint32_t side, uint64_t seed) {
    const Arrays grid = lattice(side, side + 1, false, seed);
    Arrays mesh;
    Draws draws = {seed};
    drc_head colour = quantised_head(2, 3, 0, 3);
    colour.dtype = 2;
    mesh.heads = {grid.heads[0], quantised_head(4, 3, 8, 1), quantised_head(3, 2, 12, 2), colour};
    mesh.width = 11;
    mesh.corners = grid.corners;
    for (size_t p = 0; p < grid.points(); p++) {
        const uint32_t i = grid.values[3 * p], j = grid.values[3 * p + 1], height = grid.values[3 * p + 2];
        for (uint32_t value : {i, j, height, (7 * i + height) % 256, (5 * j + height) % 256, 200u, 4 * i, 4 * j, i % 256, j % 256, draws.next() % 256})
            mesh.values.push_back(value);
    }
    return mesh;
}

// The large meshes, each by itself; small ones are of the first four kinds in turn.
static const char *const KINDS[] = {"grid", "torus", "seams", "holes", "coated"};
static const int LARGE_KINDS = 5, SMALL_KINDS = 4;

static Arrays mesh_of(int kind, uint32_t side, uint64_t seed) {
    switch (kind) {
        case 0: return lattice(side, side + 1, false, seed);
        case 1: return lattice(side, side, false, seed);
        case 2: return seams(side, seed);
        case 3: return lattice(side * 15 / 13, side * 15 / 13 + 1, true, seed);
        default: return coated(side, seed);
    }
}

static uint64_t triangles_of(const Arrays &mesh) {
    return triangles(mesh.faces(), mesh.width, [&](size_t f, int k) { return &mesh.values[mesh.corners[3 * f + k] * mesh.width]; });
}

// libdrc.

static uint32_t encode(const Arrays &mesh, const drc_options &options, drc_stream &stream, drc_fault &fault) {
    return drc_encode(1, mesh.heads.data(), mesh.heads.size(), mesh.corners.data(), mesh.faces(), mesh.values.data(), mesh.values.size(),
                      &options, &stream, &fault);
}

// How meshes are coded: the name of the row, and the options; 0 is the library's choice.
struct Coding {
    const char *name;
    uint32_t method, predict;
};

static drc_options options_of(const Coding &coding) {
    drc_options options = {};
    options.method = coding.method;
    options.predict = coding.predict;
    return options;
}

static drc_stream encoded(const Arrays &mesh, const Coding &coding) {
    const drc_options options = options_of(coding);
    drc_stream stream;
    drc_fault fault;
    if (encode(mesh, options, stream, fault) != DRC_DONE) fail("libdrc doesn't encode");
    return stream;
}

// Has a mesh refused by this kind of fault, with another first number of its first face.
static void refused(Arrays &mesh, const drc_options &options, uint32_t number, uint32_t kind) {
    drc_stream stream;
    drc_fault fault;
    std::swap(mesh.corners[0], number);
    const uint32_t status = encode(mesh, options, stream, fault);
    std::swap(mesh.corners[0], number);
    if (status != DRC_REFUSED || fault.kind != kind) fail("libdrc doesn't refuse as it should");
}

// Has a mesh refused where its arrays have been copied, if they are: by Edgebreaker at its first face, which has a point twice, and
// else at its first face, which has a point that isn't there.
static void refused_behind(Arrays &mesh, const Coding &coding) {
    const drc_options options = options_of(coding);
    if (coding.method == DRC_METHOD_SEQUENTIAL) return refused(mesh, options, mesh.points(), DRC_FAULT_IndexRange);
    refused(mesh, options, mesh.corners[1], DRC_FAULT_Degenerate);
}

// Has the same mesh refused just before: by Edgebreaker because of an index method, and else not at all.
static void refused_before(Arrays &mesh, const Coding &coding) {
    drc_options options = options_of(coding);
    options.index = DRC_INDEX_PLAIN;
    if (coding.method != DRC_METHOD_SEQUENTIAL) refused(mesh, options, mesh.corners[1], DRC_FAULT_Choice);
}

// libdraco.

// One attribute of a mesh, with a value for each point.
static void add_attribute(draco::Mesh &mesh, const Arrays &arrays, const drc_head &head, size_t at) {
    const bool is_byte = head.dtype == 2;
    const draco::DataType type = is_byte ? draco::DT_UINT8 : draco::DT_INT32;
    draco::GeometryAttribute attribute;
    attribute.Init((draco::GeometryAttribute::Type)head.usage, nullptr, head.comps, type, false, head.comps * (is_byte ? 1 : 4), 0);
    draco::PointAttribute *made = mesh.attribute(mesh.AddAttribute(attribute, true, arrays.points()));
    for (size_t p = 0; p < arrays.points(); p++) {
        const int32_t *value = &arrays.values[p * arrays.width + at];
        const vector<uint8_t> bytes(value, value + head.comps);
        made->SetAttributeValue(draco::AttributeValueIndex(p), is_byte ? (const void *)bytes.data() : (const void *)value);
    }
}

// The mesh as the encoder takes it: equal values of an attribute have one number, and equal points.
static std::unique_ptr<draco::Mesh> numbered(const Arrays &arrays) {
    std::unique_ptr<draco::Mesh> mesh(new draco::Mesh());
    mesh->set_num_points(arrays.points());
    mesh->SetNumFaces(arrays.faces());
    for (size_t f = 0; f < arrays.faces(); f++) {
        const uint32_t *corners = &arrays.corners[3 * f];
        mesh->SetFace(draco::FaceIndex(f), {draco::PointIndex(corners[0]), draco::PointIndex(corners[1]), draco::PointIndex(corners[2])});
    }
    size_t at = 0;
    for (const drc_head &head : arrays.heads) {
        add_attribute(*mesh, arrays, head, at);
        at += head.comps;
    }
    if (!mesh->DeduplicateAttributeValues()) fail("values aren't numbered");
    mesh->DeduplicatePointIds();
    return mesh;
}

// Encodes by the method, at the speed at which `draco_encoder` writes it, and the prediction that goes with it.
static void encode_there(const draco::Mesh &mesh, const Coding &coding, draco::EncoderBuffer &buffer) {
    const bool is_valence = coding.method == DRC_METHOD_VALENCE, is_sequential = coding.method == DRC_METHOD_SEQUENTIAL;
    draco::Encoder encoder;
    encoder.SetEncodingMethod(is_sequential ? draco::MESH_SEQUENTIAL_ENCODING : draco::MESH_EDGEBREAKER_ENCODING);
    const int speed = is_sequential ? 10 : is_valence ? 3 : 5;
    encoder.SetSpeedOptions(speed, speed);
    encoder.options().SetGlobalInt("edgebreaker_method",
                                   is_valence ? draco::MESH_EDGEBREAKER_VALENCE_ENCODING : draco::MESH_EDGEBREAKER_STANDARD_ENCODING);
    using Attribute = draco::GeometryAttribute;
    const bool is_multi = coding.predict == DRC_PREDICT_MULTI;
    const int prediction = is_multi ? draco::MESH_PREDICTION_CONSTRAINED_MULTI_PARALLELOGRAM : draco::MESH_PREDICTION_PARALLELOGRAM;
    if (is_multi) encoder.SetAttributePredictionScheme(Attribute::POSITION, prediction);
    if (!is_sequential)
        for (Attribute::Type type : {Attribute::GENERIC, Attribute::TEX_COORD, Attribute::COLOR}) encoder.SetAttributePredictionScheme(type, prediction);
    if (!encoder.EncodeMeshToBuffer(mesh, &buffer).ok()) fail("libdraco doesn't encode");
}

// Times.

// The times of a turn of each work, in nanoseconds a face.
static vector<double> turn(size_t faces, const vector<std::function<void()>> &works) {
    vector<double> times;
    for (const auto &work : works) {
        const double begin = processor_seconds();
        work();
        times.push_back((processor_seconds() - begin) * 1e9 / faces);
    }
    return times;
}

// One mesh for both libraries, and its streams by one method.
struct Entry {
    Arrays arrays;
    std::unique_ptr<draco::Mesh> there;
    double seconds_of_numbering;
    drc_stream stream;
    draco::EncoderBuffer stream_there;
};

static std::string ours(const Entry &entry) {
    return std::string((const char *)entry.stream.bytes, entry.stream.lengths.bytes);
}

static void check(const Entry &entry) {
    const uint64_t due = triangles_of(entry.arrays);
    for (const std::string &stream : {ours(entry), std::string(entry.stream_there.data(), entry.stream_there.size())}) {
        drc_geometry mesh = decoded(stream, 2);
        if (triangles_of(mesh) != due) fail("libdrc gives other triangles");
        drc_free(&mesh);
        if (triangles_of(*decoded_there(stream), entry.arrays.width) != due) fail("libdraco gives other triangles");
    }
}

// Encodes meshes in one way, and writes the line of their times.
static void time_meshes(const char *name, int turns, const Coding &coding, vector<Entry> &entries) {
    size_t faces = 0, bytes = 0, bytes_there = 0;
    double numbering = 0;
    for (Entry &it : entries) {
        it.stream = encoded(it.arrays, coding);
        it.stream_there.Clear();
        encode_there(*it.there, coding, it.stream_there);
        check(it);
        faces += it.arrays.faces();
        numbering += it.seconds_of_numbering;
        bytes += it.stream.lengths.bytes;
        bytes_there += it.stream_there.size();
    }
    auto each = [&entries](std::function<void(Entry &)> work) { return [&entries, work] { for (Entry &it : entries) work(it); }; };
    vector<std::string> streams;
    for (const Entry &it : entries) streams.push_back(ours(it));
    Decoder here("2", streams), there("there", streams), alone("alone", streams);
    vector<double> least(7, 1e30), decoding, encoding;
    for (int k = 0; k < turns; k++) {
        vector<double> times = {here.turn(faces).time, there.turn(faces).time, alone.turn(faces).time};
        const vector<double> others = turn(faces, {
            each([coding](Entry &it) {
                drc_stream stream = encoded(it.arrays, coding);
                drc_free_stream(&stream);
            }),
            each([coding](Entry &it) {
                draco::EncoderBuffer buffer;
                encode_there(*it.there, coding, buffer);
            }),
            each([coding](Entry &it) { refused_behind(it.arrays, coding); }),
            each([coding](Entry &it) { refused_before(it.arrays, coding); }),
        });
        times.insert(times.end(), others.begin(), others.end());
        for (size_t i = 0; i < times.size(); i++) least[i] = std::min(least[i], times[i]);
        decoding.push_back(times[0] / times[1]), encoding.push_back(times[3] / times[4]);
    }
    printf("%s %s %zu", name, coding.name, faces);
    for (double time : least) printf(" %.2f", time);
    printf(" %.2f %zu %zu %.3f %.3f\n", numbering * 1e9 / faces, bytes, bytes_there, median(decoding), median(encoding));
    fflush(stdout);
    for (Entry &it : entries) drc_free_stream(&it.stream);
}

static void add(vector<Entry> &entries, Arrays arrays) {
    entries.emplace_back();
    const double begin = processor_seconds();
    entries.back().there = numbered(arrays);
    entries.back().seconds_of_numbering = processor_seconds() - begin;
    entries.back().arrays = std::move(arrays);
}

int main(int count, char **words) {
    if (count == 2) serve(words[1]);
    if (count != 4) fail("usage: library TURNS SIDE SMALL");
    const int turns = atoi(words[1]), side = atoi(words[2]), small = atoi(words[3]);
    const Coding codings[] = {{"seq", DRC_METHOD_SEQUENTIAL, 0},
                              {"eb", DRC_METHOD_EDGEBREAKER, 0},
                              {"valence", DRC_METHOD_VALENCE, 0},
                              {"multi", DRC_METHOD_EDGEBREAKER, DRC_PREDICT_MULTI}};
    for (int kind = 0; kind <= LARGE_KINDS; kind++) {
        const bool is_large = kind < LARGE_KINDS;
        vector<Entry> entries;
        if (is_large) add(entries, mesh_of(kind, side, 1));
        for (int seed = 0; !is_large && seed < small; seed++) add(entries, mesh_of(seed % SMALL_KINDS, 16, seed));
        for (const Coding &coding : codings) time_meshes(is_large ? KINDS[kind] : "small", turns, coding, entries);
    }
    return 0;
}
