// Times libdrc in profile 3 beside libdraco, the library of Google's draco, on streams that the latter writes of floats: octahedral normals that are
// predicted from positions, and texture coordinates that are. Each decodes in a process of its own. bench/library/profile_three builds and runs it.
//
// usage: profile_three TURNS SIDE [MESH LEVEL]    the table, or one line of it
//        profile_three stream MESH LEVEL SIDE     writes one stream to standard output
//
// MESH is a surface, grid or torus, and what its points have beside positions: normals, coordinates or both; or `cut`, which is both, with seams round
// each chart of 32 cells each way. A surface has SIDE cells each way. Positions have 14 bits, normals 10 and texture coordinates 12. LEVEL is that of
// `draco_encoder -cl`: 7 or 10.
// A line for each mesh and level: mesh, level, faces, bytes of the stream; nanoseconds of processor time a face that libdrc and libdraco took, each the
// least of TURNS, which they take by turns, and the median of the turns' ratios; the same of a surface of twice SIDE cells each way; the bytes that both
// held at most at their first decoding of the smaller surface, beside the stream, and those of the arrays that libdrc answers. Before it is timed, each
// stream is decoded by both to the same triangles, as many as went in.
#include <draco/compression/encode.h>

#include "floats.hpp"

static const int LEVELS[] = {7, 10};

// The stream that libdraco writes at a level, as `draco_encoder` does.
static std::string stream_of(const Kind &kind, int level, uint32_t side) {
    const Floats floats = floats_of(kind, side);
    draco::Mesh mesh;
    mesh.set_num_points(floats.positions.size());
    for (const draco::Mesh::Face &face : floats.faces) mesh.AddFace(face);
    using Attribute = draco::GeometryAttribute;
    add_attribute(mesh, Attribute::POSITION, floats.positions);
    if (kind.has_normals) add_attribute(mesh, Attribute::NORMAL, floats.normals);
    if (kind.has_coordinates) add_attribute(mesh, Attribute::TEX_COORD, floats.coordinates);
    if (!mesh.DeduplicateAttributeValues()) fail("values aren't numbered");
    mesh.DeduplicatePointIds();
    draco::Encoder encoder;
    encoder.SetEncodingMethod(draco::MESH_EDGEBREAKER_ENCODING);
    encoder.SetSpeedOptions(10 - level, 10 - level);
    encoder.SetAttributeQuantization(Attribute::POSITION, 14);
    encoder.SetAttributeQuantization(Attribute::NORMAL, 10);
    encoder.SetAttributeQuantization(Attribute::TEX_COORD, 12);
    draco::EncoderBuffer buffer;
    if (!encoder.EncodeMeshToBuffer(mesh, &buffer).ok()) fail("libdraco doesn't encode");
    return std::string(buffer.data(), buffer.size());
}

// How many faces a stream has, where both libraries decode it to the same triangles; and the bytes of the arrays that libdrc answers.
struct Counts {
    size_t faces, arrays;
};

static Counts checked(const std::string &stream) {
    drc_geometry mesh = decoded(stream, 3);
    if (triangles_of(mesh) != triangles_of(*decoded_there(stream), mesh.shape.width)) fail("the libraries give other triangles");
    const Counts counts = {mesh.shape.faces, 12 * (size_t)mesh.shape.faces + 4 * (size_t)mesh.shape.points * mesh.shape.width};
    drc_free(&mesh);
    return counts;
}

// The turns of both libraries over a stream: the least times in nanoseconds a face, the ratios of the times, and the most that both held at the first.
struct Turns {
    double here = 1e30, there = 1e30, most_here = 0, most_there = 0;
    vector<double> ratios;

    void add(const Decoder::Turn &ours, const Decoder::Turn &theirs) {
        if (ratios.empty()) most_here = ours.most, most_there = theirs.most;
        here = std::min(here, ours.time), there = std::min(there, theirs.time);
        ratios.push_back(ours.time / theirs.time);
    }
};

// Writes the line of a mesh and a level: surfaces of both sizes and both libraries take turns.
static void write_line(const Kind &kind, int level, int turns, int side) {
    const std::string small = stream_of(kind, level, side), large = stream_of(kind, level, 2 * side);
    const Counts counts = checked(small), more = checked(large);
    if (counts.faces != 2u * side * side || more.faces != 8u * side * side) fail("faces are missing");
    Decoder here("3", {small}), there("there", {small}), more_here("3", {large}), more_there("there", {large});
    Turns first, second;
    for (int k = 0; k < turns; k++) {
        first.add(here.turn(counts.faces), there.turn(counts.faces));
        second.add(more_here.turn(more.faces), more_there.turn(more.faces));
    }
    printf("%s %d %zu %zu", kind.name, level, counts.faces, small.size());
    for (const Turns &it : {first, second}) printf(" %.2f %.2f %.3f", it.here, it.there, median(it.ratios));
    printf(" %.0f %.0f %zu\n", first.most_here, first.most_there, counts.arrays);
    fflush(stdout);
}

int main(int count, char **words) {
    if (count == 2) serve(words[1]);
    if (count == 5 && words[1] == std::string("stream")) {
        const std::string stream = stream_of(kind_of(words[2]), atoi(words[3]), atoi(words[4]));
        return fwrite(stream.data(), 1, stream.size(), stdout) != stream.size();
    }
    if (count != 3 && count != 5) fail("usage: profile_three TURNS SIDE [MESH LEVEL]");
    const int turns = atoi(words[1]), side = atoi(words[2]);
    if (count == 5) {
        write_line(kind_of(words[3]), atoi(words[4]), turns, side);
        return 0;
    }
    for (const Kind &kind : KINDS)
        for (int level : LEVELS) write_line(kind, level, turns, side);
    return 0;
}
