// Compares the corrections, flips and orientations that a stream has with those that the encoder of Google's draco makes of the same
// values, in the same order and with the same positions. tests/tool builds and runs it.
//
// usage: corrections PLACE ..    for a stream on standard input
//
// Each PLACE is that of an attribute's prediction in the stream, as `drc info` says it, in the order of the attributes. The stream is
// decoded by libdraco, its integers left as they are. Then the encoder's class for the attribute's prediction is given these integers,
// and the surface and the order that the decoder has. A line for each attribute: its prediction, its entries, how many flips or
// orientations it has, and `same`; or, instead of that word, what differs first. Predictions other than 0, 1, 5 and 6 are `left`. Ends
// with status 2 where libdraco refuses the stream.
#include <draco/attributes/attribute_octahedron_transform.h>
#include <draco/compression/attributes/prediction_schemes/prediction_scheme_encoder_factory.h>
#include <draco/compression/attributes/prediction_schemes/prediction_scheme_normal_octahedron_canonicalized_encoding_transform.h>
#include <draco/compression/attributes/prediction_schemes/prediction_scheme_wrap_encoding_transform.h>
#include <draco/compression/bit_coders/rans_bit_decoder.h>
#include <draco/compression/decode.h>
#include <draco/compression/entropy/symbol_decoding.h>
#include <draco/compression/mesh/mesh_edgebreaker_decoder.h>

#include <cstdio>
#include <cstdlib>
#include <memory>
#include <string>
#include <vector>

using std::string;
using std::vector;
using Wrap = draco::PredictionSchemeWrapEncodingTransform<int32_t>;
using Octahedron = draco::PredictionSchemeNormalOctahedronCanonicalizedEncodingTransform<int32_t>;

[[noreturn]] static void end(int status, const string &why) {
    fprintf(stderr, "corrections: %s\n", why.c_str());
    exit(status);
}

static string read_all(FILE *file) {
    string bytes;
    char piece[1 << 16];
    for (size_t got; (got = fread(piece, 1, sizeof piece, file)) > 0;) bytes.append(piece, got);
    return bytes;
}

// What is coded of an attribute: its symbols, its flips or the bits of its orientations, and both numbers of its transform.
struct Coded {
    vector<uint32_t> symbols;
    vector<bool> flags;
    int32_t ends[2];
};

template <class Number>
static Number taken(draco::DecoderBuffer &from) {
    Number number;
    if (!from.Decode(&number)) end(2, "a number is missing");
    return number;
}

static void take_flags(draco::DecoderBuffer &from, size_t count, vector<bool> &flags) {
    draco::RAnsBitDecoder bits;
    if (!bits.StartDecoding(&from)) end(2, "a block of bits is missing");
    while (flags.size() < count) flags.push_back(bits.DecodeNextBit());
}

// What stands behind the symbols, in the order of each prediction.
static void take_data(draco::DecoderBuffer &from, int prediction, size_t entries, Coded &coded) {
    if (prediction == draco::MESH_PREDICTION_TEX_COORDS_PORTABLE) {
        const int32_t count = taken<int32_t>(from);
        take_flags(from, count, coded.flags);
    }
    for (int32_t &it : coded.ends) it = taken<int32_t>(from);
    if (prediction == draco::MESH_PREDICTION_GEOMETRIC_NORMAL) take_flags(from, entries, coded.flags);
}

static draco::DecoderBuffer buffer_of(const char *bytes, size_t length) {
    draco::DecoderBuffer buffer;
    buffer.Init(bytes, length);
    buffer.set_bitstream_version(DRACO_BITSTREAM_VERSION(2, 2));
    return buffer;
}

// What the stream has from the item behind the transform on.
static Coded coded_here(draco::DecoderBuffer &from, int prediction, size_t entries, int comps) {
    Coded coded;
    coded.symbols.resize(entries * comps);
    if (taken<uint8_t>(from) != 0) {
        if (!draco::DecodeSymbols(coded.symbols.size(), comps, &from, coded.symbols.data())) end(2, "symbols are missing");
    } else {
        const int width = taken<uint8_t>(from);
        for (uint32_t &it : coded.symbols) {
            it = 0;
            if (!from.Decode(&it, width)) end(2, "values are missing");
        }
    }
    take_data(from, prediction, entries, coded);
    return coded;
}

// The decoded geometry, with the surface and the orders of a mesh that was coded by Edgebreaker.
struct Decoded {
    std::unique_ptr<draco::PointCloud> geometry;
    draco::MeshEdgebreakerDecoder edgebreaker;
    bool has_surface = false;
};

static void decode(const string &bytes, Decoded &decoded) {
    draco::DecoderBuffer buffer;
    buffer.Init(bytes.data(), bytes.size());
    draco::Decoder decoder;
    draco::DecoderOptions options;
    for (int type = 0; type < draco::GeometryAttribute::NAMED_ATTRIBUTES_COUNT; type++) {
        decoder.SetSkipAttributeTransform((draco::GeometryAttribute::Type)type);
        options.SetAttributeBool((draco::GeometryAttribute::Type)type, "skip_attribute_transform", true);
    }
    decoded.has_surface = bytes.size() > 8 && bytes[7] == draco::TRIANGULAR_MESH && bytes[8] == draco::MESH_EDGEBREAKER_ENCODING;
    if (decoded.has_surface) {
        std::unique_ptr<draco::Mesh> mesh(new draco::Mesh());
        const draco::Status status = decoded.edgebreaker.Decode(options, &buffer, mesh.get());
        if (!status.ok()) end(2, status.error_msg_string());
        decoded.geometry = std::move(mesh);
    } else {
        auto cloud = decoder.DecodePointCloudFromBuffer(&buffer);
        if (!cloud.ok()) end(2, cloud.status().error_msg_string());
        decoded.geometry = std::move(cloud).value();
    }
}

static vector<int32_t> values_of(const draco::PointAttribute &attribute) {
    const int comps = attribute.num_components();
    vector<int32_t> values(attribute.size() * comps);
    for (size_t e = 0; e < attribute.size(); e++)
        if (!attribute.ConvertValue<int32_t>(draco::AttributeValueIndex(e), comps, &values[e * comps])) end(2, "a value above 32 bits");
    return values;
}

template <class Transform>
using SchemeOf = draco::PredictionSchemeEncoder<int32_t, Transform>;

// The encoder's prediction of an attribute, over the surface and the order that the decoder has.
template <class Transform>
static std::unique_ptr<SchemeOf<Transform>> scheme_of(const Decoded &decoded, int id, int prediction, const Transform &transform) {
    using Scheme = SchemeOf<Transform>;
    const draco::PointAttribute *attribute = decoded.geometry->attribute(id);
    if (prediction == draco::PREDICTION_DIFFERENCE)
        return std::unique_ptr<Scheme>(new draco::PredictionSchemeDeltaEncoder<int32_t, Transform>(attribute, transform));
    auto scheme = draco::CreateMeshPredictionScheme<draco::MeshDecoder, Scheme, draco::MeshPredictionSchemeEncoderFactory<int32_t>>(
        &decoded.edgebreaker, (draco::PredictionSchemeMethod)prediction, id, transform, DRACO_BITSTREAM_VERSION(2, 2));
    if (!scheme) end(2, "there is no such prediction");
    const draco::PointAttribute *positions = decoded.geometry->GetNamedAttribute(draco::GeometryAttribute::POSITION);
    if (scheme->GetNumParentAttributes() > 0 && !(positions && scheme->SetParentAttribute(positions))) end(2, "there are no positions");
    return scheme;
}

template <class Transform>
static Coded coded_there(const Decoded &decoded, int id, int prediction, const Transform &transform) {
    const draco::PointAttribute &attribute = *decoded.geometry->attribute(id);
    const vector<int32_t> values = values_of(attribute);
    vector<draco::PointIndex> points;
    if (decoded.has_surface)
        for (draco::CornerIndex corner : decoded.edgebreaker.GetAttributeEncodingData(id)->encoded_attribute_value_index_to_corner_map)
            points.push_back(decoded.edgebreaker.mesh()->CornerToPointId(corner));
    const auto scheme = scheme_of(decoded, id, prediction, transform);
    vector<int32_t> corrections(values.size());
    Coded coded;
    draco::EncoderBuffer data;
    const int comps = attribute.num_components();
    if (!scheme->ComputeCorrectionValues(values.data(), corrections.data(), values.size(), comps, points.data()) ||
        !scheme->EncodePredictionData(&data))
        end(2, "libdraco doesn't encode an attribute");
    coded.symbols.assign(corrections.begin(), corrections.end());
    if (!scheme->AreCorrectionsPositive())
        draco::ConvertSignedIntsToSymbols(corrections.data(), corrections.size(), coded.symbols.data());
    draco::DecoderBuffer from = buffer_of(data.data(), data.size());
    take_data(from, prediction, attribute.size(), coded);
    return coded;
}

static string told(const string &what, size_t at, int64_t here, int64_t there) {
    return what + " " + std::to_string(at) + ": " + std::to_string(here) + " where libdraco has " + std::to_string(there);
}

// What differs first, or the word `same`.
static string difference(const Coded &here, const Coded &there, int comps) {
    for (size_t k = 0; k < here.symbols.size(); k++)
        if (here.symbols[k] != there.symbols[k]) return told("correction of entry", k / comps, here.symbols[k], there.symbols[k]);
    if (here.flags.size() != there.flags.size()) return told("flips or orientations of", 0, here.flags.size(), there.flags.size());
    for (size_t k = 0; k < here.flags.size(); k++)
        if (here.flags[k] != there.flags[k]) return told("flip or bit of an orientation", k, here.flags[k], there.flags[k]);
    for (int k = 0; k < 2; k++)
        if (here.ends[k] != there.ends[k]) return told("number of the transform", k, here.ends[k], there.ends[k]);
    return "same";
}

static void compare(const Decoded &decoded, int id, const string &bytes, size_t place) {
    const draco::PointAttribute &attribute = *decoded.geometry->attribute(id);
    draco::DecoderBuffer from = buffer_of(bytes.data() + place, bytes.size() - place);
    const int prediction = taken<int8_t>(from), comps = attribute.num_components();
    if (prediction == draco::PREDICTION_NONE || prediction == draco::MESH_PREDICTION_CONSTRAINED_MULTI_PARALLELOGRAM) {
        printf("%d %zu 0 left\n", prediction, attribute.size());
        return;
    }
    const int transform = taken<int8_t>(from);
    const Coded here = coded_here(from, prediction, attribute.size(), comps);
    Coded there;
    if (transform == draco::PREDICTION_TRANSFORM_NORMAL_OCTAHEDRON_CANONICALIZED) {
        draco::AttributeOctahedronTransform octahedron;
        if (!octahedron.InitFromAttribute(attribute)) end(2, "an attribute isn't octahedral");
        there = coded_there(decoded, id, prediction, Octahedron((1 << octahedron.quantization_bits()) - 1));
    } else {
        there = coded_there(decoded, id, prediction, Wrap());
    }
    printf("%d %zu %zu %s\n", prediction, attribute.size(), here.flags.size(), difference(here, there, comps).c_str());
}

int main(int count, char **words) {
    const string bytes = read_all(stdin);
    Decoded decoded;
    decode(bytes, decoded);
    if (count - 1 != decoded.geometry->num_attributes()) end(1, "usage: corrections PLACE .., a place for each attribute");
    for (int id = 0; id < count - 1; id++) {
        const size_t place = strtoull(words[id + 1], nullptr, 10);
        if (place >= bytes.size()) end(1, "a place behind the stream");
        compare(decoded, id, bytes, place);
    }
    return 0;
}
