"""Meshes of floats for the tests of convert/drc-pack and convert/drc-unpack, written as text or bytes by this file alone, so what the
programs read is known; running the programs, and comparing what comes back.

Faces are compared by the map of `enc`, or as triangles that may be turned but not turned over. The scans are those of Debian's packages
libcgal-demo and assimp-testmodels where these are installed."""
import json
import math
import os
import pathlib
import random
import struct
import subprocess
import sys
import tarfile
import tempfile

HERE = pathlib.Path(__file__).resolve().parent
TOP = HERE.parents[1]
CONVERT = TOP / "convert"
sys.path[:0] = [str(CONVERT), str(HERE.parent / "shared")]

try:
    import numpy as np
except ImportError:
    print("skipped, numpy is missing")
    print("0 passed, 0 failed")
    sys.exit(0)

from drcfiles.reading import ply as ply_reader  # noqa: E402

MODELS = pathlib.Path("/usr/share/assimp/models")
SCANS = pathlib.Path("/usr/share/doc/libcgal-dev/data.tar.gz")
METHODS = (["--method", "seq"], ["--method", "seq", "--index", "packed", "--predict", "none"], ["--method", "eb"], ["--method", "eb", "--plain-values"],
           ["--method", "valence", "--predict", "multi", "--walk", "degree"])


class Made:
    """A mesh as this file knows it: tables of floats of 32 bits by their names, rows of corners, and for each corner its row in each table."""

    def __init__(self, name, positions, faces, normals=None, textures=None, colours=None):
        self.name, self.faces = name, np.array(faces, np.int64).reshape(-1, 3)
        self.positions = np.array(positions, np.float32)
        self.normals = None if normals is None else np.array(normals, np.float32)
        self.textures = None if textures is None else np.array(textures, np.float32)
        self.colours = None if colours is None else np.array(colours, np.uint8)

    def tables(self):
        return [it for it in (self.positions, self.normals, self.textures, self.colours) if it is not None]

    def obj(self):
        """Each table listed by points, so a corner is k/k/k; equal rows stand once, as exporters write them."""
        lines, numbers = [], []
        for word, table in (("v", self.positions), ("vt", self.textures), ("vn", self.normals)):
            if table is None:
                numbers.append(None)
                continue
            known, number = {}, []
            for row in table:
                text = " ".join(digits(it) for it in row)
                if text not in known:
                    known[text] = len(known) + 1
                    lines.append(f"{word} {text}")
                number.append(known[text])
            numbers.append(number)
        for face in self.faces:
            corners = []
            for k in face:
                parts = ["" if it is None else str(it[k]) for it in numbers]
                corners.append("/".join(parts).rstrip("/"))
            lines.append("f " + " ".join(corners))
        return ("# made\n" + "\n".join(lines) + "\n").encode()

    def ply(self, is_text=False, big=False):
        order = ">" if big else "<"
        head = ["ply", "format ascii 1.0" if is_text else f"format binary_{'big' if big else 'little'}_endian 1.0", f"element vertex {len(self.positions)}"]
        for table, names in ((self.positions, "x y z"), (self.normals, "nx ny nz"), (self.textures, "u v"), (self.colours, "red green blue")):
            if table is not None:
                head += [f"property {'uchar' if table.dtype == np.uint8 else 'float'} {name}" for name in names.split()]
        head += [f"element face {len(self.faces)}", "property list uchar int vertex_index", "end_header"]
        tables, parts = self.tables(), [("\n".join(head) + "\n").encode()]
        for k in range(len(self.positions)):
            if is_text:
                parts.append((" ".join(digits(it) for table in tables for it in table[k]) + "\n").encode())
            else:
                parts += [table[k].astype(table.dtype.newbyteorder(order)).tobytes() for table in tables]
        for face in self.faces:
            parts.append(("3 %d %d %d\n" % tuple(face)).encode() if is_text else struct.pack(f"{order}B3i", 3, *face))
        return b"".join(parts)

    def stl(self, is_text=False):
        if is_text:
            lines = ["solid made"]
            for face in self.faces:
                lines += ["facet normal 0 0 0", " outer loop", *(f"  vertex {' '.join(digits(it) for it in self.positions[k])}" for k in face), " endloop", "endfacet"]
            return ("\n".join(lines + ["endsolid made"]) + "\n").encode()
        parts = [b"made".ljust(80), struct.pack("<I", len(self.faces))]
        for face in self.faces:
            parts.append(struct.pack("<3f", 0, 0, 0) + self.positions[face].astype("<f4").tobytes() + b"\0\0")
        return b"".join(parts)

    def glb(self):
        binary, views, accessors, attributes = b"", [], [], {}
        for name, table, kind in (("POSITION", self.positions, "VEC3"), ("NORMAL", self.normals, "VEC3"), ("TEXCOORD_0", self.textures, "VEC2")):
            if table is not None:
                data = table.astype("<f4").tobytes()
                attributes[name] = len(accessors)
                more = {"min": table.min(axis=0).tolist(), "max": table.max(axis=0).tolist()} if name == "POSITION" else {}
                accessors.append({"bufferView": len(views), "componentType": 5126, "count": len(table), "type": kind, **more})
                views.append({"buffer": 0, "byteOffset": len(binary), "byteLength": len(data)})
                binary += data
        data = self.faces.astype("<u4").tobytes()
        accessors.append({"bufferView": len(views), "componentType": 5125, "count": self.faces.size, "type": "SCALAR"})
        views.append({"buffer": 0, "byteOffset": len(binary), "byteLength": len(data)})
        binary += data
        document = {"asset": {"version": "2.0"}, "scene": 0, "scenes": [{"nodes": [0]}], "nodes": [{"mesh": 0}], "accessors": accessors, "bufferViews": views,
                    "buffers": [{"byteLength": len(binary)}], "meshes": [{"primitives": [{"attributes": attributes, "indices": len(accessors) - 1, "mode": 4}]}]}
        text = json.dumps(document).encode()
        text += b" " * (-len(text) % 4)
        binary += b"\0" * (-len(binary) % 4)
        body = struct.pack("<II", len(text), 0x4E4F534A) + text + struct.pack("<II", len(binary), 0x004E4942) + binary
        return struct.pack("<III", 0x46546C67, 2, 12 + len(body)) + body


def digits(value):
    return str(int(value)) if isinstance(value, np.integer) else "%.9g" % value


def lattice(side, height, noise, seed, holes=0.0):
    draw = random.Random(seed)
    positions = [(i / side + draw.gauss(0, noise), j / side + draw.gauss(0, noise), height(i / side, j / side) + draw.gauss(0, noise))
                 for j in range(side + 1) for i in range(side + 1)]
    at = lambda i, j: j * (side + 1) + i
    faces = []
    for j in range(side):
        for i in range(side):
            if draw.random() >= holes:
                a, b, c, d = at(i, j), at(i + 1, j), at(i, j + 1), at(i + 1, j + 1)
                faces += [(a, b, d), (a, d, c)] if draw.random() < 0.5 else [(a, b, c), (b, d, c)]
    used = sorted({k for face in faces for k in face})
    number = {k: n for n, k in enumerate(used)}
    return [positions[k] for k in used], [tuple(number[k] for k in face) for face in faces]


def scan_like(side=60):
    """A surface with the noise, holes and torn places of a scan, far from the origin."""
    positions, faces = lattice(side, lambda x, y: 0.3 * math.sin(7 * x) * math.cos(5 * y), 0.004 / side, 7, 0.03)
    return Made("scan-like", [(812.25 + 93.1 * x, -45.5 + 93.1 * y, 93.1 * z) for x, y, z in positions], faces)


def unwrapped(side=9):
    """A closed cylinder with normals and texture coordinates, whose seam has two texture coordinates at each place, and caps with edges."""
    positions, normals, textures, faces = [], [], [], []
    for j in range(side + 1):
        for i in range(side + 1):
            turn = 2 * math.pi * (i % side) / side
            positions.append((math.cos(turn), math.sin(turn), 3 * j / side))
            normals.append((math.cos(turn), math.sin(turn), 0.0))
            textures.append((i / side, j / side))
    at = lambda i, j: j * (side + 1) + i
    for j in range(side):
        for i in range(side):
            a, b, c, d = at(i, j), at(i + 1, j), at(i, j + 1), at(i + 1, j + 1)
            faces += [(a, b, d), (a, d, c)]
    for z, way in ((0.0, -1), (3.0, 1)):
        first = len(positions)
        for i in range(side):
            turn = 2 * math.pi * i / side
            positions.append((math.cos(turn), math.sin(turn), z))
            normals.append((0.0, 0.0, way))
            textures.append((0.5 + math.cos(turn) / 2, 0.5 + math.sin(turn) / 2))
        faces += [(first, first + i, first + i + 1) if way > 0 else (first, first + i + 1, first + i) for i in range(1, side - 1)]
    return Made("unwrapped", positions, faces, normals, textures)


def coloured():
    positions, faces = lattice(12, lambda x, y: x * y, 0.0, 3)
    draw = random.Random(4)
    return Made("coloured", positions, faces, colours=[[draw.randrange(256) for _ in range(3)] for _ in positions])


def awkward():
    """Numbers of many magnitudes, whose decimals are no floats."""
    draw = random.Random(11)
    positions = [[draw.gauss(0, 1) * 10 ** draw.uniform(-6, 5) for _ in range(3)] for _ in range(300)]
    return Made("awkward", positions, [draw.sample(range(300), 3) for _ in range(500)])


def made():
    return [scan_like(), unwrapped(), coloured(), awkward()]


def turned(rows):
    """Triangles as rows of three corners, each turned so that its least corner is first, in order."""
    return sorted(min((a, b, c), (b, c, a), (c, a, b)) for a, b, c in rows)


def corner_rows(tables, faces):
    """The corners of each face as bytes of all tables, bit for bit."""
    rows = [b"".join(table[k].tobytes() for table in tables) for k in range(len(tables[0]))]
    return [tuple(rows[k] for k in face) for face in np.asarray(faces).tolist()]


class Tests:
    def __init__(self, program, folder):
        self.program, self.folder, self.passed, self.failed = program, folder, 0, 0
        self.environment = {**os.environ, "DRC": program}

    def tell(self, holds, title):
        self.passed += bool(holds)
        self.failed += not holds
        if not holds:
            print(f"FAILED: {title}")

    def skip(self, what, missing):
        print(f"{what}: skipped, {missing} is missing")

    def run(self, name, *words, **more):
        return subprocess.run([sys.executable, str(CONVERT / name), *map(str, words)], stdout=subprocess.PIPE, stderr=subprocess.PIPE,
                              env=self.environment, check=False, **more)

    def drc(self, words, data):
        return subprocess.run([self.program, *words], input=data, stdout=subprocess.PIPE, stderr=subprocess.PIPE, check=False)

    def file(self, name, data):
        path = self.folder / name
        path.write_bytes(data)
        return path

    def packed(self, title, source, *words):
        """Packs a file; its stream's path, or None."""
        out = self.folder / "packed.drc"
        out.unlink(missing_ok=True)
        ran = self.run("drc-pack", source, "-o", out, "--force", *words)
        self.tell(ran.returncode == 0, f"{title}: drc-pack: {ran.stderr.decode()}")
        return out if ran.returncode == 0 else None

    def unpacked(self, title, stream, ending=".ply", *words):
        out = self.folder / f"unpacked{ending}"
        out.unlink(missing_ok=True)
        ran = self.run("drc-unpack", stream, "-o", out, "--force", *words)
        self.tell(ran.returncode == 0, f"{title}: drc-unpack: {ran.stderr.decode()}")
        return out if ran.returncode == 0 else None


def map_rows(path):
    lines = path.read_text().split("\n")
    return np.array([line.split() for line in lines[1:-1]], np.int64)


def within_half_a_step(tests, title, wanted, found, bits):
    """Each float of a table, corner by corner, within half a step of its grid, and what float arithmetic loses besides."""
    extent = float((wanted.max(axis=(0, 1)) - wanted.min(axis=(0, 1))).max()) if wanted.size else 0.0
    step = (extent or 1.0) / ((1 << bits) - 1)
    loss = 4 * float(np.spacing(np.float32(max(np.abs(wanted).max(), extent, 1e-30))))
    error = float(np.abs(wanted.astype(np.float64) - found).max())
    tests.tell(error <= step / 2 + loss, f"{title}: error {error:.9g}, half a step is {step / 2:.9g}")


def comes_back(tests, mesh, name, data, words=(), has=("positions",)):
    """Packed and unpacked, the triangles are as many, in the map's order turned as it says, and each float is within half a step."""
    title = f"{mesh.name} {name} {' '.join(words)}"
    rows = tests.folder / "packed.map"
    stream = tests.packed(title, tests.file(name, data), "--map", rows, *words)
    back = stream and tests.unpacked(title, stream)
    if not back:
        return
    given = mesh.faces
    found = ply_reader.read(back)
    moves = map_rows(rows)
    tests.tell(len(found.faces) == len(given) == len(moves) and sorted(moves[:, 0]) == list(range(len(given))), f"{title}: as many triangles")
    corner = (np.arange(3)[None, :] + moves[:, 1:2]) % 3
    stood = given[moves[:, 0:1], corner]  # the point of the mesh at each corner of the stream
    by_usage = {it.usage: it.values for it in found.attributes}
    for word, usage, bits in (("positions", 0, 14), ("normals", 1, 10), ("textures", 3, 12)):
        table = getattr(mesh, word)
        if word in has and table is not None:
            within_half_a_step(tests, f"{title}: {word}", table[stood], by_usage[usage][found.faces], bits)
    if "colours" in has and mesh.colours is not None:
        tests.tell((mesh.colours[stood] == by_usage[2][found.faces]).all(), f"{title}: colours")


def one_line(tests, title, ran, status, *parts):
    lines = ran.stderr.decode("utf-8", "replace").splitlines()
    right = ran.returncode == status and len(lines) == 1 and all(part in lines[0] for part in parts) and not ran.stdout
    tests.tell(right, f"{title}: wanted status {status} and one line with {parts}, got {ran.returncode}: {ran.stderr.decode()[:300]}")


def scans(tests):
    """Files of meshes that Debian's packages ship, as OBJ or STL that both programs read."""
    found = []
    if SCANS.exists():
        with tarfile.open(SCANS) as archive:
            lines = archive.extractfile("data/meshes/bunny00.off").read().decode().split("\n")
        rows = [line.split() for line in lines[1:] if line.strip() and not line.startswith("#")]
        points, faces = int(rows[0][0]), int(rows[0][1])
        text = [f"v {' '.join(row[:3])}" for row in rows[1 : points + 1]]
        text += [f"f {' '.join(str(int(k) + 1) for k in row[1:4])}" for row in rows[points + 1 : points + faces + 1]]
        found.append(("bunny", tests.file("bunny.obj", ("\n".join(text) + "\n").encode())))
    else:
        tests.skip("the bunny", "Debian's libcgal-demo")
    if MODELS.exists():
        found += [("spider", MODELS / "OBJ/spider.obj"), ("Wuson", MODELS / "OBJ/WusonOBJ.obj")]
    else:
        tests.skip("two models", "Debian's assimp-testmodels")
    return found


def run(*parts):
    """Runs the parts of a test with a folder of their own; the last line printed is 'N passed, M failed', the status 0 where M is 0."""
    if len(sys.argv) != 2:
        sys.exit(sys.modules["__main__"].__doc__)
    with tempfile.TemporaryDirectory() as folder:
        tests = Tests(os.path.abspath(sys.argv[1]), pathlib.Path(folder))
        for part in parts:
            part(tests)
    print(f"{tests.passed} passed, {tests.failed} failed")
    sys.exit(tests.failed > 0)
