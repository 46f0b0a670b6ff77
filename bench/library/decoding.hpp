// Decoding by libdrc and by libdraco, the library of Google's draco: the triangles of what they give, and processes of their own in which each works, for
// library.cpp, profile_three.cpp and encoding_three.cpp.
#include <drc.h>
#include <draco/compression/decode.h>
#include <fcntl.h>
#include <sys/wait.h>
#include <time.h>
#include <unistd.h>

#include <algorithm>
#include <cstdio>
#include <cstdlib>
#include <cstring>
#include <functional>
#include <memory>
#include <string>
#include <vector>

using std::vector;

[[noreturn]] static void fail(const std::string &why) {
    fprintf(stderr, "bench/library: %s\n", why.c_str());
    exit(1);
}

// The triangles of a mesh, whatever the order of its faces and however they are turned, as a sum.
template <class Row>
static uint64_t triangles(size_t faces, size_t width, Row row) {
    uint64_t sum = 0;
    for (size_t f = 0; f < faces; f++) {
        uint64_t corners[3];
        for (int k = 0; k < 3; k++) {
            const int32_t *values = row(f, k);
            corners[k] = 1469598103934665603u;
            for (size_t j = 0; j < width; j++) corners[k] = (corners[k] ^ (uint32_t)values[j]) * 1099511628211u;
        }
        for (int k = 0; k < 3; k++) sum += (corners[k] * 31 + corners[(k + 1) % 3]) * 31 + corners[(k + 2) % 3] * corners[k];
    }
    return sum;
}

static uint64_t triangles_of(const drc_geometry &mesh) {
    uint32_t width = mesh.shape.width;
    return triangles(mesh.shape.faces, width, [&](size_t f, int k) { return mesh.values + mesh.corners[3 * f + k] * (size_t)width; });
}

static uint64_t triangles_of(const draco::Mesh &mesh, size_t width) {
    vector<int32_t> row(width);
    return triangles(mesh.num_faces(), width, [&](size_t f, int k) {
        draco::PointIndex point = mesh.face(draco::FaceIndex(f))[k];
        size_t at = 0;
        for (int id = 0; id < mesh.num_attributes(); at += mesh.attribute(id)->num_components(), id++)
            if (!mesh.attribute(id)->ConvertValue<int32_t>(mesh.attribute(id)->mapped_index(point), &row[at])) fail("no integers");
        return row.data();
    });
}

static drc_geometry decoded(const std::string &stream, uint32_t profile) {
    drc_geometry mesh;
    drc_fault fault;
    if (drc_decode((const uint8_t *)stream.data(), stream.size(), profile, &mesh, &fault) != DRC_DONE) fail("libdrc doesn't decode");
    return mesh;
}

// Decodes without room for arrays, so that none is handed out.
static void decoded_alone(const std::string &stream) {
    drc_shape shape;
    drc_fault fault;
    if (drc_decode_into((const uint8_t *)stream.data(), stream.size(), 2, NULL, 0, NULL, 0, &shape, &fault) != DRC_NO_ROOM) fail("libdrc had room");
}

// By libdraco, which leaves integers as they are.
static std::unique_ptr<draco::Mesh> decoded_there(const std::string &stream) {
    draco::Decoder decoder;
    using Attribute = draco::GeometryAttribute;
    for (Attribute::Type type : {Attribute::POSITION, Attribute::NORMAL, Attribute::TEX_COORD, Attribute::GENERIC}) decoder.SetSkipAttributeTransform(type);
    draco::DecoderBuffer buffer;
    buffer.Init(stream.data(), stream.size());
    auto mesh = decoder.DecodeMeshFromBuffer(&buffer);
    if (!mesh.ok()) fail("libdraco doesn't decode: " + mesh.status().error_msg_string());
    return std::move(mesh).value();
}

static double processor_seconds() {
    timespec now;
    clock_gettime(CLOCK_PROCESS_CPUTIME_ID, &now);
    return now.tv_sec + 1e-9 * now.tv_nsec;
}

static double median(vector<double> numbers) {
    std::nth_element(numbers.begin(), numbers.begin() + numbers.size() / 2, numbers.end());
    return numbers[numbers.size() / 2];
}

// The ways in which streams are decoded, by the words that a process of their own is begun with: by libdrc in profile 2 or 3, without room for
// its arrays, or by libdraco.
static void decode(const std::string &way, const std::string &stream) {
    if (way == "there") {
        decoded_there(stream);
    } else if (way == "alone") {
        decoded_alone(stream);
    } else {
        drc_geometry mesh = decoded(stream, way == "3" ? 3 : 2);
        drc_free(&mesh);
    }
}

// A number of the system's report on this process, in bytes.
static double held(const char *name) {
    char line[256];
    double kilobytes = 0;
    FILE *status = fopen("/proc/self/status", "r");
    while (status && fgets(line, sizeof line, status))
        if (strncmp(line, name, strlen(name)) == 0) kilobytes = atol(line + strlen(name));
    if (status) fclose(status);
    return kilobytes * 1024;
}

// From now on the most that is held counts anew.
static void forget_most_held() {
    FILE *file = fopen("/proc/self/clear_refs", "w");
    if (!file || fputs("5", file) < 0 || fclose(file) != 0) fail("the most that was held can't be forgotten");
}

static void take(void *to, size_t size) {
    if (fread(to, 1, size, stdin) != size) exit(0);
}

// Does a work for each byte that comes, and answers the seconds that it took, and the bytes that were held at most beside what was held before.
[[noreturn]] static void answer(const std::function<void()> &work) {
    for (char asked;;) {
        take(&asked, 1);
        forget_most_held();
        const double before = held("VmRSS:"), begin = processor_seconds();
        work();
        const double answer[2] = {processor_seconds() - begin, held("VmHWM:") - before};
        fwrite(answer, sizeof answer, 1, stdout);
        fflush(stdout);
    }
}

// The work of a process that decodes: takes the streams, and then decodes all of them at each turn.
[[noreturn]] static void serve(const std::string &way) {
    size_t count;
    take(&count, sizeof count);
    vector<std::string> streams(count);
    for (std::string &stream : streams) {
        size_t length;
        take(&length, sizeof length);
        stream.resize(length);
        take(&stream[0], length);
    }
    answer([&] {
        for (const std::string &stream : streams) decode(way, stream);
    });
}

// A process of its own that does one work and nothing else, begun with these words. What other work leaves in memory, blocks that were freed and pages
// that libdrc asked to be huge, is not there, as it isn't where one library is used alone.
class Process {
    FILE *to, *from;
    pid_t child;

public:
    explicit Process(vector<std::string> words) {
        int asked[2], answered[2];
        if (pipe2(asked, O_CLOEXEC) != 0 || pipe2(answered, O_CLOEXEC) != 0 || (child = fork()) < 0) fail("no process can be had");
        if (child == 0) {
            dup2(asked[0], 0), dup2(answered[1], 1);
            vector<char *> line = {(char *)"library"};
            for (std::string &word : words) line.push_back(&word[0]);
            line.push_back(nullptr);
            execv("/proc/self/exe", line.data());
            _exit(1);
        }
        close(asked[0]), close(answered[1]);
        to = fdopen(asked[1], "wb"), from = fdopen(answered[0], "rb");
    }

    Process(const Process &) = delete;

    ~Process() {
        fclose(to), fclose(from);
        waitpid(child, nullptr, 0);
    }

    // The time of a turn, in nanoseconds a face, and the bytes that were held at most. Of the first turn these are what a process holds that works once.
    struct Turn {
        double time, most;
    };

    Turn turn(size_t faces) {
        double answer[2];
        if (fputc('t', to) == EOF || fflush(to) != 0 || fread(answer, sizeof answer, 1, from) != 1) fail("a process is gone");
        return {answer[0] * 1e9 / faces, answer[1]};
    }

protected:
    void put(const void *bytes, size_t count) { fwrite(bytes, 1, count, to); }
    void put(size_t number) { put(&number, sizeof number); }
};

// One that decodes these streams.
class Decoder : public Process {
public:
    Decoder(const char *way, const vector<std::string> &streams) : Process({way}) {
        put(streams.size());
        for (const std::string &stream : streams) {
            put(stream.size());
            put(stream.data(), stream.size());
        }
    }
};
