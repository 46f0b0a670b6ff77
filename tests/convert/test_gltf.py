#!/usr/bin/python3
"""Shows that convert/drc-gltf keeps triangles and all else of glTF files, and that other readers read what it packs.

usage: tests/convert/test_gltf.py PROGRAM

PROGRAM is the built `drc`. numpy (Debian's python3-numpy) is needed; `draco_decoder`, `draco_encoder` and `draco_transcoder` (package
draco), `assimp` (assimp-utils) and the models of assimp-testmodels take part where they are there, and what is left out without them is
said. The last line printed is 'N passed, M failed'; the exit status is 0 where M is 0.
"""
import base64
import json
import math
import pathlib
import shutil
import struct
import subprocess
import sys
import tempfile
import zlib

HERE = pathlib.Path(__file__).resolve().parent
CONVERT = HERE.parents[1] / "convert"
sys.path[:0] = [str(HERE), str(HERE.parent / "shared"), str(CONVERT)]
try:
    import numpy as np
except ImportError:
    print(f"{pathlib.Path(sys.argv[0]).name}: skipped, python3-numpy is missing")
    sys.exit(0)

from drcfiles.glb import read_glb, write_glb
from drcfiles.grids import grid_of, octahedral, to_integers, unit_vectors
from drcfiles.program import Drc
from shapes import lattice, read_binary

DRACO = "KHR_draco_mesh_compression"
MODELS = pathlib.Path("/usr/share/assimp/models/glTF2")
TOOL = CONVERT / "drc-gltf"
KINDS = {5120: "i1", 5121: "u1", 5122: "<i2", 5123: "<u2", 5125: "<u4", 5126: "<f4"}
NUMBER_OF = {np.dtype(kind): number for number, kind in KINDS.items()}
WIDE = {"SCALAR": 1, "VEC2": 2, "VEC3": 3, "VEC4": 4}


# Making documents.


class Maker:
    """A glTF document in the making: one buffer, its views and accessors."""

    def __init__(self):
        self.binary, self.json = b"", {"asset": {"version": "2.0"}, "accessors": [], "bufferViews": []}

    def view(self, data, **more):
        self.binary += bytes(-len(self.binary) % 4)
        self.json["bufferViews"].append({"buffer": 0, "byteOffset": len(self.binary), "byteLength": len(data), **more})
        self.binary += data
        return len(self.json["bufferViews"]) - 1

    def accessor(self, table, kind, is_bounded=False, **more):
        table = np.asarray(table, kind)
        wide = 1 if table.ndim == 1 else table.shape[1]
        bounds = {"min": table.min(axis=0).tolist(), "max": table.max(axis=0).tolist()} if is_bounded else {}
        item = {"bufferView": self.view(table.tobytes()), "componentType": NUMBER_OF[table.dtype], "count": len(table)}
        self.json["accessors"].append({**item, "type": {v: k for k, v in WIDE.items()}[wide], **bounds, **more})
        return len(self.json["accessors"]) - 1

    def scene(self, *primitives, **more):
        self.json.update(
            {"meshes": [{"primitives": list(primitives)}], "nodes": [{"mesh": 0}], "scenes": [{"nodes": [0]}], "scene": 0, **more}
        )
        self.json["buffers"] = [{"byteLength": len(self.binary), "name": "the data"}]
        return self

    def glb(self):
        return write_glb(self.json, self.binary)


def sphere(wide, high):
    """Positions, normals, texture coordinates with a seam from pole to pole, and indices."""
    positions, normals, coordinates, faces = [], [], [], []
    for j in range(high + 1):
        for i in range(wide + 1):
            a, b = 2 * math.pi * (i % wide) / wide, math.pi * j / high
            normal = (math.cos(a) * math.sin(b), math.cos(b), math.sin(a) * math.sin(b)) if 0 < j < high else (0, 1 - 2 * (j > 0), 0)
            normals.append(normal)
            positions.append([1.7 * x + 0.3 for x in normal])
            coordinates.append((i / wide, j / high))
    for j in range(high):
        for i in range(wide):
            a, b, c, d = (j * (wide + 1) + i + it for it in (0, 1, wide + 1, wide + 2))
            faces += [(a, b, d)] * (j > 0) + [(a, d, c)] * (j < high - 1)
    return np.array(positions, "f4"), np.array(normals, "f4"), np.array(coordinates, "f4"), np.array(faces).ravel()


def picture():
    rows = b"".join(b"\0" + bytes(c for x in range(4) for c in (60 * x, 60 * y, 128)) for y in range(4))
    chunk = lambda kind, data: struct.pack(">I", len(data)) + kind + data + struct.pack(">I", zlib.crc32(kind + data))
    return (
        b"\x89PNG\r\n\x1a\n"
        + chunk(b"IHDR", struct.pack(">IIBBBBB", 4, 4, 8, 2, 0, 0, 0))
        + chunk(b"IDAT", zlib.compress(rows))
        + chunk(b"IEND", b"")
    )


def two():
    """Two primitives, one with a texture and one with colours, an animation, a camera and extras."""
    it = Maker()
    positions, normals, coordinates, faces = sphere(16, 8)
    first = {
        "NORMAL": it.accessor(normals, "f4"),
        "POSITION": it.accessor(positions, "f4", True),
        "TEXCOORD_0": it.accessor(coordinates, "f4"),
    }
    one = {"attributes": first, "indices": it.accessor(faces, "<u2"), "material": 0}
    image = it.view(picture())
    colours = np.concatenate([np.abs(normals) * 255, np.full((len(normals), 1), 255)], axis=1).astype("u1")
    second = {"POSITION": it.accessor(positions + 3, "f4", True), "COLOR_0": it.accessor(colours, "u1", normalized=True)}
    two = {"attributes": second, "indices": it.accessor(faces, "<u2"), "material": 1, "extras": {"bufferView": 1, "kept": [1, 2.5, "ü"]}}
    times, turns = it.accessor([0, 1.5], "f4", True), it.accessor([[0, 0, 0, 1], [0, 1, 0, 0]], "f4")
    return it.scene(
        one,
        two,
        nodes=[{"mesh": 0, "name": "ball"}, {"camera": 0}],
        cameras=[{"type": "perspective", "perspective": {"yfov": 0.7, "znear": 0.01}}],
        materials=[{"pbrMetallicRoughness": {"baseColorTexture": {"index": 0}}}, {"name": "plain"}],
        textures=[{"source": 0}],
        images=[{"bufferView": image, "mimeType": "image/png"}],
        animations=[
            {"channels": [{"sampler": 0, "target": {"node": 0, "path": "rotation"}}], "samplers": [{"input": times, "output": turns}]}
        ],
        extras={"who": "me", "bufferView": 3},
    )


def net(side=6, **more):
    """One primitive of a net of triangles, with positions alone."""
    it = Maker()
    points, faces = lattice(side)
    attributes = {"POSITION": it.accessor(np.array(points) / 7, "f4", True)}
    return it.scene({"attributes": attributes, "indices": it.accessor(np.ravel(faces), "<u2"), **more})


# Reading documents.


class Document:
    """A GLB, or a .gltf with its buffers, read in a plain way of this test's own."""

    def __init__(self, path):
        data = path.read_bytes()
        if data[:4] == b"glTF":
            self.json, binary = read_glb(data)
        else:
            self.json, binary = json.loads(data), None
        self.buffers = []
        for item in self.json.get("buffers", []):
            uri = item.get("uri")
            self.buffers.append(
                binary
                if uri is None
                else base64.b64decode(uri.split(",")[1])
                if uri.startswith("data:")
                else (path.parent / uri.replace("%20", " ")).read_bytes()
            )

    def view(self, number):
        item = self.json["bufferViews"][number]
        return self.buffers[item["buffer"]][item.get("byteOffset", 0) :][: item["byteLength"]]

    def rows(self, number):
        item = self.json["accessors"][number]
        data, kind, wide = self.view(item["bufferView"]), np.dtype(KINDS[item["componentType"]]), WIDE[item["type"]]
        step = self.json["bufferViews"][item["bufferView"]].get("byteStride", kind.itemsize * wide)
        at = item.get("byteOffset", 0)
        return np.array([np.frombuffer(data, kind, wide, at + step * k) for k in range(item["count"])])

    def primitives(self):
        return [it for mesh in self.json["meshes"] for it in mesh["primitives"]]

    def tables(self, primitive, names):
        return [self.rows(primitive["attributes"][name]) for name in names]

    def faces(self, primitive):
        if "indices" not in primitive:
            return np.arange(self.json["accessors"][primitive["attributes"]["POSITION"]]["count"]).reshape(-1, 3)
        return self.rows(primitive["indices"]).reshape(-1, 3)

    def grid(self, primitive, bits=14):
        """The grid of the positions of all primitives of a primitive's mesh; None where they are integers."""
        mesh = next(it for it in self.json["meshes"] if any(one is primitive for one in it["primitives"]))
        tables = [self.rows(it["attributes"]["POSITION"]) for it in mesh["primitives"]]
        return grid_of(np.concatenate(tables), bits) if tables[0].dtype == np.float32 else None

    def images(self):
        return [self.view(it["bufferView"]) for it in self.json.get("images", []) if "bufferView" in it]

    def rest(self):
        """All that packing isn't to change, with data in the place of numbers of buffer views."""
        kept = {
            key: value
            for key, value in self.json.items()
            if key not in ("accessors", "bufferViews", "buffers", "extensionsUsed", "extensionsRequired")
        }
        kept["images"] = self.images(), [{k: v for k, v in it.items() if k != "bufferView"} for it in self.json.get("images", [])]
        kept["meshes"] = [
            [{k: v for k, v in it.items() if k not in ("attributes", "indices", "extensions")} for it in m["primitives"]]
            for m in self.json["meshes"]
        ]
        kept["samplers"] = [
            self.rows(it[end]).tolist() for a in self.json.get("animations", []) for it in a["samplers"] for end in ("input", "output")
        ]
        return kept


def places(item):
    """Each member of a document's objects and lists: what holds it, and its key."""
    for key, value in list(item.items()) if isinstance(item, dict) else list(enumerate(item)):
        yield item, key
        if isinstance(value, (dict, list)):
            yield from places(value)


def triangles(tables, faces):
    """The triangles as sorted triples of rows, each begun at its least row."""
    rows = [sum((tuple(part) for part in parts), ()) for parts in zip(*(table.tolist() for table in tables))]
    corners = ([rows[i] for i in face] for face in faces.tolist())
    return sorted(min(tuple(it[k:] + it[:k]) for k in range(3)) for it in corners)


def faces_there(data, count):
    """The faces of a binary PLY file of Google's draco, which puts texture coordinates behind the corners of each face."""
    step = 13 + 25 * (b"texcoord" in data.partition(b"end_header")[0])
    return [struct.unpack_from("<3i", data, len(data) - step * (count - k) + 1) for k in range(count)]


def on_grid(tables, bits, grids=None, position=None):
    """The tables as integers on their grids (those of the first tables; of positions, which are the first, the one that is given), and the grids."""
    grids = grids or [grid_of(it, b) if b and it.dtype == np.float32 else None for it, b in zip(tables, bits)]
    grids = grids if position is None else [position, *grids[1:]]
    return [to_integers(it, grid) if grid else it for it, grid in zip(tables, grids)], grids


BITS = {"POSITION": 14, "NORMAL": 10, "TANGENT": 10, "TEXCOORD_0": 12, "COLOR_0": 10, "WEIGHTS_0": 12}  # of floats


class Tests:
    def __init__(self, program, folder):
        self.program, self.folder, self.passed, self.failed, self.count = program, folder, 0, 0, 0

    def tell(self, holds, title):
        self.passed += bool(holds)
        self.failed += not holds
        if not holds:
            print(f"FAILED: {title}")

    def path(self, name):
        """A place in a folder of its own."""
        self.count += 1
        folder = self.folder / str(self.count)
        folder.mkdir()
        return folder / name

    def save(self, name, data):
        path = self.path(name)
        path.write_bytes(data)
        return path

    def tool(self, *words):
        plain = ["--profile", "2"] if words[0] == "pack" and "--profile" not in words else []
        return subprocess.run([TOOL, *map(str, words), *plain, "--force", "--drc", self.program], stdout=subprocess.PIPE, stderr=subprocess.PIPE)

    def done(self, title, *words):
        """Runs the tool, which is to end well, and to replace what an earlier test left; gives the lines on standard error."""
        ran = self.tool(*words, "--force")
        self.tell(ran.returncode == 0, f"{title}: status {ran.returncode} {ran.stderr.decode().strip()}")
        return ran.stderr.decode().splitlines() if ran.returncode == 0 else None

    def refused(self, title, command, path, *parts, words=()):
        """The tool is to refuse: status 2, one line with these words, nothing beside the input."""
        before = sorted(path.parent.iterdir())
        out = path.parent / "out.glb"
        ran = self.tool(command, path, out, *words)
        line = ran.stderr.decode()
        holds = (
            ran.returncode == 2 and line.count("\n") == 1 and all(it in line for it in parts) and sorted(path.parent.iterdir()) == before
        )
        self.tell(holds, f"{title}: status {ran.returncode} {line.strip()}")

    # Both ways.

    def both_ways(self, title, path, names, words=(), end=".glb", read_there=True, dropped=0):
        """Packs and unpacks: the triangles are those given, on the grids; all else is kept; other readers agree. Gives the lines."""
        packed, back = path.parent / f"packed{end}", path.parent / f"back{end}"
        lines = self.done(f"{title} pack", "pack", path, packed, *words)
        if lines is None or self.done(f"{title} unpack", "unpack", packed, back) is None:
            return lines
        given, there, again = Document(path), Document(packed), Document(back)
        self.tell(given.rest() == there.rest() == again.rest(), f"{title}: all else is kept")
        self.tell(
            list(given.json) == [key for key in there.json if not key.startswith("extensions") or key in given.json],
            f"{title}: the order of members",
        )
        self.tell(DRACO in there.json["extensionsUsed"] and DRACO in there.json["extensionsRequired"], f"{title}: the lists of extensions")
        self.tell(
            DRACO not in again.json.get("extensionsUsed", []) + again.json.get("extensionsRequired", []),
            f"{title}: the lists after unpacking",
        )
        for k, (a, b, c) in enumerate(zip(given.primitives(), there.primitives(), again.primitives())):
            order = sorted(names[k], key=lambda name: name != "POSITION")
            bits = [BITS.get(name.replace("1", "0")) for name in order]
            mine, grids = on_grid(given.tables(a, order), bits, position=given.grid(a))
            wanted = triangles(mine, given.faces(a))
            got = triangles(on_grid(again.tables(c, order), bits, grids)[0], again.faces(c))
            holds = wanted == got if not dropped else len(wanted) == len(got) + dropped and set(got) <= set(wanted)
            self.tell(holds, f"{title}: the triangles of primitive {k}")
            for name in names[k]:
                self.tell(self.is_bounded(again, c["attributes"][name]), f"{title}: the bounds of {name}")
                item = dict(there.json["accessors"][b["attributes"][name]])
                self.tell("bufferView" not in item and "byteOffset" not in item, f"{title}: {name} has no buffer view")
                same = again.json["accessors"][c["attributes"][name]]
                self.tell(
                    [item.get(key) for key in ("min", "max")] == [same.get(key) for key in ("min", "max")],
                    f"{title}: {name} declares the decoded bounds",
                )
            if read_there:
                self.stream_there(f"{title} primitive {k}", there, b, again, c)
        if read_there:
            self.assimp(title, path, packed, back, dropped)
        return lines

    def is_bounded(self, document, number):
        item, rows = document.json["accessors"][number], document.rows(number)
        return "min" not in item or (item["min"] == rows.min(axis=0).tolist() and item["max"] == rows.max(axis=0).tolist())

    def stream_there(self, title, packed, primitive, back, unpacked):
        """`draco_decoder` reads the stream: as many points as the accessors declare, and the positions of unpacking, bit for bit."""
        extension = primitive["extensions"][DRACO]
        accessors = packed.json["accessors"]
        indices = accessors[primitive["indices"]]
        counts = {accessors[it]["count"] for it in primitive["attributes"].values()}
        self.tell(
            len(counts) == 1 and set(extension["attributes"]) == set(primitive["attributes"]), f"{title}: the attributes of the extension"
        )
        self.tell(
            indices["componentType"] == (5123 if max(counts) <= 65535 else 5125) and "bufferView" not in indices, f"{title}: the indices"
        )
        if not shutil.which("draco_decoder"):
            return
        stream, text = self.path("s.drc"), self.folder / "s.ply"
        stream.write_bytes(packed.view(extension["bufferView"]))
        text.unlink(missing_ok=True)
        subprocess.run(["draco_decoder", "-i", stream, "-o", text], stdout=subprocess.DEVNULL, check=False)
        if not text.exists():
            self.tell(False, f"{title}: draco_decoder refuses it")
            return
        _, rows, faces = read_binary(text.read_bytes())
        faces = faces_there(text.read_bytes(), len(faces))
        self.tell(len(rows) == max(counts) and 3 * len(faces) == indices["count"], f"{title}: {len(rows)} points there, {counts} declared")
        there = triangles([np.array([row[:3] for row in rows])], np.array(faces))
        here = triangles([back.rows(unpacked["attributes"]["POSITION"])], back.faces(unpacked))
        self.tell(there == here, f"{title}: the positions there are those here")

    def assimp(self, title, given, packed, back, dropped):
        """assimp reads the packed file as it reads the unpacked one, where it reads the one given."""
        before = self.scene_there(given) if shutil.which("assimp") else []
        if before:
            there, here = (self.scene_there(it) for it in (packed, back))
            self.tell(there == here and len(there) == len(before) - dropped, f"{title}: the triangles that assimp reads")

    def scene_there(self, path):
        out = path.with_suffix(".obj")
        out.unlink(missing_ok=True)
        subprocess.run(["assimp", "export", path, out], stdout=subprocess.DEVNULL, stderr=subprocess.DEVNULL, check=False)
        lines = [line.split() for line in out.read_text().splitlines()] if out.exists() else []
        tables = {kind: [tuple(map(float, it[1:])) for it in lines if it and it[0] == kind] for kind in ("v", "vn", "vt")}
        corner = lambda word: tuple(tables[kind][int(number) - 1] for kind, number in zip(("v", "vt", "vn"), word.split("/")) if number)
        made = [[corner(word) for word in it[1:]] for it in lines if it and it[0] == "f"]
        return sorted(min(tuple(it[k:] + it[:k]) for k in range(3)) for it in made)

    # The parts.

    def kinds_of_files(self):
        names = [["POSITION", "NORMAL", "TEXCOORD_0"], ["POSITION", "COLOR_0"]]
        made = two()
        self.both_ways("two primitives", self.save("two.glb", made.glb()), names)
        document = json.loads(json.dumps(made.json))
        document["buffers"][0]["uri"] = "data:application/octet-stream;base64," + base64.b64encode(made.binary).decode()
        self.both_ways("data URI", self.save("two.gltf", json.dumps(document).encode()), names, end=".gltf")
        document["buffers"][0]["uri"] = "the%20data.bin"
        path = self.save("two.gltf", json.dumps(document).encode())
        (path.parent / "the data.bin").write_bytes(made.binary)
        self.both_ways("buffer beside", path, names, end=".gltf")
        self.both_ways("buffer beside to GLB", path, names)
        self.tell((path.parent / "the data.bin").read_bytes() == made.binary, "the input's buffer stays")
        self.in_two_buffers(made, names)
        self.both_ways("GLB to .gltf", self.save("two.glb", made.glb()), names, end=".gltf")

    def in_two_buffers(self, made, names):
        """The first half of the views in one buffer, the rest in another; the data of the first overlaps."""
        document = json.loads(json.dumps(made.json))
        half = document["bufferViews"][3]["byteOffset"]
        for view in document["bufferViews"][3:]:
            view.update(buffer=1, byteOffset=view["byteOffset"] - half)
        document["buffers"] = [{"byteLength": half, "uri": "a.bin"}, {"byteLength": len(made.binary) - half, "uri": "b.bin"}]
        path = self.save("two.gltf", json.dumps(document).encode())
        (path.parent / "a.bin").write_bytes(made.binary[:half])
        (path.parent / "b.bin").write_bytes(made.binary[half:])
        self.both_ways("two buffers", path, names, end=".gltf")

    def options(self):
        path, names = self.save("two.glb", two().glb()), [["POSITION", "NORMAL", "TEXCOORD_0"], ["POSITION", "COLOR_0"]]
        for words in (
            "--method seq",
            "--method seq --index plain --predict none",
            "--method eb --predict multi --walk degree",
            "--method valence --predict diff --plain-values",
        ):
            self.both_ways(words, path, names, words.split())
        sizes = [self.size_of(path, words) for words in ([], ["--qp", "8", "--qn", "6", "--qt", "8"])]
        self.tell(sizes[1] < sizes[0], "fewer bits, fewer bytes")
        ran = self.tool("pack", path, path.parent / "x.glb", "--qp", "31")
        self.tell(ran.returncode == 1 and ran.stderr.count(b"\n") == 1, "31 bits are bad words")

    def size_of(self, path, words):
        self.done(f"sizes {words}", "pack", path, path.parent / "sized.glb", *words)
        return (path.parent / "sized.glb").stat().st_size

    def forms(self):
        """Forms of primitives: without indices, shared points, shared data, integers, floats of all kinds."""
        positions, normals, coordinates, faces = sphere(8, 6)
        it = Maker()
        self.both_ways(
            "no indices",
            self.save("a.glb", it.scene({"attributes": {"POSITION": it.accessor(positions[faces], "f4", True)}}).glb()),
            [["POSITION"]],
        )
        it = Maker()
        shared = it.accessor(positions, "f4", True)
        parts = [
            {"attributes": {"POSITION": shared}, "indices": it.accessor(part, kind)}
            for part, kind in ((faces[:90], "<u4"), (faces[90:], "u1"))
        ]
        path = self.save("a.glb", it.scene(*parts, {"attributes": {"POSITION": shared}, "mode": 0}).glb())
        lines = self.both_ways_but("shared points", path, 2)
        self.tell(lines and "meshes[0].primitives[2] is left as it is" in lines[0], "points are left as they are")
        it = Maker()
        same = {"attributes": {"POSITION": it.accessor(positions, "f4", True)}, "indices": it.accessor(faces, "<u2")}
        path = self.save("a.glb", it.scene(dict(same, material=0), dict(same, material=1), materials=[{}, {}]).glb())
        self.both_ways("shared data", path, [["POSITION"]] * 2)
        self.tell(
            len({p["extensions"][DRACO]["bufferView"] for p in Document(path.parent / "packed.glb").primitives()}) == 1,
            "shared data is one stream",
        )
        it = Maker()
        tangents = np.concatenate([normals, np.ones((len(normals), 1))], axis=1)
        attributes = {
            "JOINTS_0": it.accessor(np.arange(4 * len(positions)).reshape(-1, 4) % 7, "<u2"),
            "WEIGHTS_0": it.accessor(np.full((len(positions), 4), 0.25), "f4"),
            "TANGENT": it.accessor(tangents, "f4"),
            "NORMAL": it.accessor(normals, "f4"),
            "TEXCOORD_0": it.accessor(coordinates, "f4"),
            "COLOR_0": it.accessor(np.abs(normals), "f4"),
            "_LABEL": it.accessor(np.arange(len(positions)) % 3, "i1"),
            "_NUMBER": it.accessor(np.arange(len(positions)) * 977, "f4"),
            "POSITION": it.accessor(positions, "f4", True),
        }
        path = self.save("a.glb", it.scene({"attributes": attributes, "indices": it.accessor(faces, "<u2")}).glb())
        self.both_ways("all kinds", path, [list(attributes)])
        given, again = Document(path), Document(path.parent / "back.glb")
        numbers = [
            sorted({it.rows(it.primitives()[0]["attributes"]["_NUMBER"])[k, 0] for k in given.faces(given.primitives()[0]).ravel()})
            for it in (given,)
        ]
        numbers.append(sorted(set(again.rows(again.primitives()[0]["attributes"]["_NUMBER"])[:, 0])))
        self.tell(numbers[0] == numbers[1], "whole numbers in floats come back as they are")
        it = Maker()  # integers of 16 bits, which the PLY files of Google's draco haven't
        attributes = {
            "NORMAL": it.accessor(normals * 127, "i1", normalized=True),
            "TEXCOORD_0": it.accessor(coordinates * 65535, "<u2", normalized=True),
            "POSITION": it.accessor(np.round(positions * 9000), "<i2", True),
        }
        path = self.save(
            "a.glb",
            it.scene({"attributes": attributes, "indices": it.accessor(faces, "<u2")}, extensionsUsed=["KHR_mesh_quantization"]).glb(),
        )
        self.both_ways("integers", path, [list(attributes)], read_there=False)

    def both_ways_but(self, title, path, coded):
        """Packs and unpacks a document of which the first primitives alone are coded: all triangles come back."""
        packed, back = path.parent / "packed.glb", path.parent / "back.glb"
        lines = self.done(f"{title} pack", "pack", path, packed)
        if lines is None or self.done(f"{title} unpack", "unpack", packed, back) is None:
            return lines
        given, there, again = Document(path), Document(packed), Document(back)
        for k, (a, b, c) in enumerate(zip(given.primitives(), there.primitives(), again.primitives())):
            self.tell((DRACO in b.get("extensions", {})) == (k < coded), f"{title}: which primitives are coded")
            tables = [it.rows(p["attributes"]["POSITION"]) for it, p in ((given, a), (again, c))]
            if k >= coded:
                self.tell(np.array_equal(*tables), f"{title}: primitive {k} stays")
                continue
            whole = grid_of(tables[0], 14)
            self.tell(
                triangles([to_integers(tables[0], whole)], given.faces(a)) == triangles([to_integers(tables[1], whole)], again.faces(c)),
                f"{title}: the triangles of primitive {k}",
            )
        return lines

    def left(self):
        """What isn't coded stays as it is, with a line; what needs the order of points is sequential."""
        made = net(mode=1)
        path = self.save("a.glb", made.glb())
        lines = self.done("lines", "pack", path, path.parent / "out.glb")
        self.tell(lines and len(lines) == 1 and "mode 1" in lines[0], "lines are left as they are")
        self.tell(read_glb((path.parent / "out.glb").read_bytes()) == read_glb(path.read_bytes()), "a file without a coded primitive stays")
        made = net()
        made.json["accessors"][0]["sparse"] = {"count": 1, "indices": {"bufferView": 1, "componentType": 5123}, "values": {"bufferView": 0}}
        path = self.save("a.glb", made.glb())
        lines = self.done("sparse", "pack", path, path.parent / "out.glb")
        self.tell(lines and "sparse" in lines[0], "sparse accessors are left as they are")
        made = net()
        made.json["meshes"][0]["primitives"][0]["extensions"] = {"EXT_other": {"indices": 1}}
        made.json["extensionsUsed"] = ["EXT_other"]
        path = self.save("a.glb", made.glb())
        lines = self.done("an extension", "pack", path, path.parent / "out.glb")
        self.tell(lines and "EXT_other" in lines[0], "primitives with an unknown extension are left as they are")

    def open_documents(self):
        """With an unknown extension nothing is taken out or renumbered."""
        made = net(extras={})
        made.json.update(extensionsUsed=["EXT_other"], extensions={"EXT_other": {"data": 0}})
        path = self.save("a.glb", made.glb())
        lines = self.both_ways("an unknown extension", path, [["POSITION"]])
        self.tell(lines and "EXT_other" in lines[0], "the unknown extension is named")
        there = Document(path.parent / "packed.glb")
        self.tell(there.view(0) == Document(path).view(0) and there.json["bufferViews"][:2] == made.json["bufferViews"], "its data stays")

    def morphs(self):
        positions, normals, _, faces = sphere(8, 6)
        it = Maker()
        attributes = {"POSITION": it.accessor(positions, "f4", True), "NORMAL": it.accessor(normals, "f4")}
        target = {"POSITION": it.accessor(normals / 3, "f4", True)}
        path = self.save(
            "a.glb", it.scene({"attributes": attributes, "indices": it.accessor(faces, "<u2"), "targets": [target]}, extras={}).glb()
        )
        lines = self.both_ways("morph targets", path, [["POSITION", "NORMAL"]])
        self.tell(lines and "sequentially" in lines[0], "morph targets: a line says so")
        given, again = Document(path), Document(path.parent / "back.glb")
        a, b = given.primitives()[0], again.primitives()[0]
        self.tell(np.array_equal(given.rows(a["targets"][0]["POSITION"]), again.rows(b["targets"][0]["POSITION"])), "morph targets stay")
        near = np.abs(given.rows(a["attributes"]["POSITION"]) - again.rows(b["attributes"]["POSITION"])).max()
        self.tell(near < 3.5 / 2**14 and np.array_equal(given.faces(a), again.faces(b)), "morph targets: points and faces stay in order")

    def degenerate(self):
        made = net()
        faces = Document(self.save("a.glb", made.glb())).rows(1).ravel().tolist()
        it = Maker()
        positions = np.array(lattice(6)[0]) / 7
        flat = {"attributes": {"POSITION": it.accessor(positions, "f4", True)}, "indices": it.accessor(faces + [0, 0, 1, 3, 4, 3], "<u2")}
        path = self.save("a.glb", it.scene(flat).glb())
        count = len(faces) // 3 + 2
        lines = self.both_ways("degenerate faces kept", path, [["POSITION"]], ["--keep-degenerate"])
        self.tell(lines and f"sequentially, which takes more bytes, for 2 of {count} faces" in lines[0], f"degenerate faces kept: a line says so: {lines}")
        kept = (path.parent / "packed.glb").stat().st_size
        for words in ([], ["--drop-degenerate"], ["--method", "seq"]):
            lines = self.both_ways(f"degenerate faces left out {words}", path, [["POSITION"]], words, dropped=2)
            self.tell(lines and f"left out 2 of {count} faces" in lines[0] and "--keep-degenerate" in lines[0], f"degenerate faces {words}: a line says so: {lines}")
            self.tell("seq" in words or (path.parent / "packed.glb").stat().st_size < kept, "degenerate faces left out take fewer bytes")

    def borders(self):
        """Places that primitives of a mesh share stay shared, bit for bit; by a step or the grid of a file those of all meshes and files do. The line that is
        printed says the grid."""
        parts = [np.array(lattice(20)[0], "f4") * 0.37 + 0.11, np.array(lattice(7)[0], "f4") * 0.37 + 0.11, np.array(lattice(13)[0], "f4") * 0.37 + 0.11]
        faces = [lattice(it)[1] for it in (20, 7, 13)]
        it = Maker()
        made = [{"attributes": {"POSITION": it.accessor(table, "f4", True)}, "indices": it.accessor(np.ravel(rows), "<u2")} for table, rows in zip(parts, faces)]
        made.append({"attributes": dict(made[0]["attributes"]), "indices": it.accessor(np.ravel(faces[0])[:9], "<u2")})
        it.scene(*made[:2])
        it.json["meshes"] = [{"primitives": made[:2]}, {"primitives": [made[2]]}, {"primitives": [made[3]]}]
        path = self.save("borders.glb", it.glb())
        shared = {tuple(row) for row in parts[0].tolist()} & {tuple(row) for row in parts[1].tolist()} & {tuple(row) for row in parts[2].tolist()}
        for words, is_shared, grids, said in (
            ([], [True, False], 2, "on 2 grids, of steps from"), (["--own-grids"], [False, False], 3, "on 3 grids"), (["--step", "0.01"], [True, True], 1, "bits, step 0.01 (0.00999999978 as a float"),
            (["--step", "0.0078125"], [True, True], 1, "10 bits, step 0.0078125, origin"), (["--grid", path.parent / "grid.glb"], [True, True], 1, "12 bits, step"),
        ):
            packed, back = path.parent / "packed.glb", path.parent / "back.glb"
            ran = self.tool("pack", path, packed, *words)
            self.tell(ran.returncode == 0 and said in ran.stdout.decode(), f"borders {words}: {ran.stdout} {ran.stderr}")
            if not words:
                one = Maker()
                table = [row for part in parts for row in part.tolist()]
                one.scene({"attributes": {"POSITION": one.accessor(table, "f4", True)}, "indices": one.accessor(np.arange(len(table) - len(table) % 3), "<u2")})
                self.done("a grid's file", "pack", self.save("one.glb", one.glb()), path.parent / "grid.glb", "--qp", "12")
            if self.done(f"borders {words}", "unpack", packed, back) is None:
                continue
            again = Document(back)
            tables = [again.rows(p["attributes"]["POSITION"]) for p in again.primitives()]
            near = [{near for near in map(tuple, table.tolist()) if min(np.abs(np.array(near) - row).max() for row in shared) < 0.03} for table in tables]
            self.tell([near[0] >= near[1], near[0] >= near[2]] == is_shared, f"borders {words}: places that are shared")
            streams = [Document(packed).view(p["extensions"][DRACO]["bufferView"]) for p in Document(packed).primitives()]
            found = {line for it in streams for line in subprocess.run([self.program, "dec"], input=it, stdout=subprocess.PIPE, check=True).stdout.decode().splitlines() if "drc quant 0" in line}
            self.tell(len(found) == grids, f"borders {words}: the grids {found}")
        grid = path.parent / "grid.glb"
        self.refused("outside of the grid", "pack", self.save("far.glb", two().glb()), "meshes[0].primitives[0].POSITION: point", "lies outside of the grid", words=["--grid", grid])
        self.done("two grids", "pack", path, path.parent / "packed.glb")
        self.refused("two grids", "pack", self.save("a.glb", net().glb()), "packed.glb", "2 grids", words=["--grid", path.parent / "packed.glb"])
        self.refused("no grid", "pack", self.save("a.glb", net().glb()), "borders.glb", "no primitive of it is coded", words=["--grid", path])
        self.refused("too fine", "pack", self.save("a.glb", net().glb()), "meshes[0].primitives[0].POSITION", "more than 30 bits", words=["--step", "1e-9"])
        ran = self.tool("pack", path, grid, "--grid", grid)
        self.tell(ran.returncode == 1 and b"is an input" in ran.stderr, f"the grid's file is an input: {ran.stderr}")
        ran = self.tool("pack", path, grid, "--step", "1", "--qp", "9")
        self.tell(ran.returncode == 1 and b"not allowed with" in ran.stderr, f"a step and bits: {ran.stderr}")

    def methods(self):
        """A primitive of a thousand faces or more is coded by valence where no method is asked for."""
        for side, words, wanted in ((22, [], "eb"), (23, [], "valence"), (23, ["--method", "eb"], "eb"), (23, ["--method", "seq"], "seq")):
            path = self.save("net.glb", net(side).glb())
            packed = path.parent / "packed.glb"
            if self.done(f"{side} {words}", "pack", path, packed, *words) is not None:
                stream = Document(packed).view(Document(packed).primitives()[0]["extensions"][DRACO]["bufferView"])
                said = subprocess.run([self.program, "info"], input=stream, stdout=subprocess.PIPE, check=True).stdout.decode().split("\n")[0]
                self.tell(said.split()[-1] == wanted, f"a net of {2 * side * side} faces {words}: {said}")

    def octahedral(self):
        """By profile 3, which is what is taken without a word, normals are octahedral: the tool's integers, of 8 bits where no others are asked for; all else is as
        by profile 2."""
        path, names = self.save("two.glb", two().glb()), ("POSITION", "TEXCOORD_0")
        packed, back, default = (path.parent / name for name in ("packed.glb", "back.glb", "default.glb"))
        subprocess.run([TOOL, "pack", path, default, "--drc", self.program], stdout=subprocess.DEVNULL, check=True)
        for words, bits in ((["--profile", "3"], 8), (["--profile", "3", "--qn", "11"], 11), (["--profile", "3", "--method", "seq"], 8), (["--profile", "3", "--predict", "diff"], 8)):
            if self.done(f"{words}", "pack", path, packed, *words) is None or self.done(f"{words}", "unpack", packed, back) is None:
                continue
            given, again = Document(path), Document(back)
            a, c = given.primitives()[0], again.primitives()[0]
            mine, grids = on_grid(given.tables(a, names), [14, 12], position=given.grid(a))
            vectors = unit_vectors(octahedral(given.rows(a["attributes"]["NORMAL"]), bits), bits)
            there = [*on_grid(again.tables(c, names), [14, 12], grids)[0], again.rows(c["attributes"]["NORMAL"])]
            self.tell(triangles([*mine, vectors], given.faces(a)) == triangles(there, again.faces(c)), f"{words}: the triangles, with the normals that the coordinates stand for")
            if words == ["--profile", "3"]:
                self.tell(default.read_bytes() == packed.read_bytes(), "without a word the profile is 3")
        ran = self.tool("pack", path, packed, "--profile", "3", "--qn", "1")
        self.tell(ran.returncode == 1 and b"2 to 30 bits" in ran.stderr, f"one octahedral bit: {ran.stderr}")

    def many_points(self):
        """More than 65,535 points have indices of 32 bits; `draco_decoder` reads them, and assimp's reader of these isn't asked."""
        points, faces = lattice(260)
        it = Maker()
        attributes = {"POSITION": it.accessor(points, "f4", True)}
        path = self.save("a.glb", it.scene({"attributes": attributes, "indices": it.accessor(np.ravel(faces), "<u4")}).glb())
        packed, back = path.parent / "packed.glb", path.parent / "back.glb"
        if (
            self.done("many points", "pack", path, packed) is not None
            and self.done("many points unpacked", "unpack", packed, back) is not None
        ):
            there, again = Document(packed), Document(back)
            self.stream_there("many points", there, there.primitives()[0], again, again.primitives()[0])

    def models(self):
        """The models that assimp's package of tests ships: each is packed and comes back, or is refused for what is wrong with it."""
        for title in (
            "BoxTextured-glTF/BoxTextured.gltf",
            "BoxTextured-glTF-Binary/BoxTextured.glb",
            "ClearCoat-glTF/ClearCoatTest.gltf",
            "issue_3269/texcoord_crash.gltf",
            "simple_skin/simple_skin.gltf",
            "glTF-Sample-Models/AnimatedMorphCube-glTF/AnimatedMorphCube.gltf",
        ):
            path = self.model(title)
            names = [list(it["attributes"]) for it in Document(path).primitives()]
            self.both_ways(title, path, names, end=path.suffix)
        engine = self.model("2CylinderEngine-glTF-Binary/2CylinderEngine.glb")
        small = engine.parent / "small.glb"
        lines = self.done("the engine", "pack", engine, small, "--method", "valence")
        self.tell(lines and len(lines) == 1 and "25 more primitives" in lines[0] and "left out" in lines[0], f"the engine: {lines}")
        self.tell(small.exists() and small.stat().st_size < engine.stat().st_size / 6, "the engine takes less than a sixth")
        self.refused(
            "an index out of range", "pack", self.model("IndexOutOfRange/IndexOutOfRange.gltf"), "meshes[0].primitives[0]", "index 0 is 255"
        )
        self.refused("infinite positions", "pack", self.model("BoxWithInfinites-glTF-Binary/BoxWithInfinites.glb"), "POSITION", "inf")
        self.refused("a view beyond its buffer", "pack", self.model("IncorrectVertexArrays/Cube.gltf"), "bufferViews[2]", "buffers[0]")
        self.done("octahedral normals", "unpack", self.model("draco/2CylinderEngine.gltf"), self.folder / "engine.glb")
        missing = self.tool("pack", self.model("MissingBin/BoxTextured.gltf"), self.folder / "out.glb")
        self.tell(missing.returncode == 3 and b"BoxTextured0.bin" in missing.stderr, "a missing buffer is status 3")

    def model(self, name):
        """A copy of a model's folder; the model in it."""
        folder = self.path("model").with_name("model")
        shutil.copytree((MODELS / name).parent, folder)
        return folder / pathlib.Path(name).name

    # Bad input, and files of others.

    def bad(self):
        whole = two().glb()
        path = self.save("a.glb", whole)
        packed = path.parent / "packed.glb"
        self.done("to be cut", "pack", path, packed)
        for command, data in (("pack", whole), ("unpack", packed.read_bytes())):
            for size in sorted({1, 4, 11, 12, 19, 20, 200, len(data) // 2, len(data) - 1}):
                self.refused(f"{command} cut at {size}", command, self.save("cut.glb", data[:size]))
        self.refused("no JSON", "pack", self.save("a.gltf", b"{"), "JSON")
        self.refused("deep JSON", "pack", self.save("a.gltf", b'{"asset":' + b"[" * 100000), "JSON")
        self.refused("no Unicode", "pack", self.save("a.gltf", b'{"asset":{"version":"2.0"},"extras":"\\ud800"}'), "Unicode")
        deep = b'{"asset":{"version":"2.0"},"extensions":' + b"[" * 900 + b"]" * 900 + b"}"
        self.ends_well("a deep JSON", "pack", self.save("a.gltf", deep))
        for title, change, *parts in (
            (
                "an index out of range",
                lambda it: it.update(accessors=[dict(it["accessors"][0], count=9), it["accessors"][1]]),
                "primitives[0]",
                "index",
                "9 points",
            ),
            ("an accessor that isn't there", lambda it: it.update(accessors=it["accessors"][:1]), "primitives[0]", "accessors[1]"),
            ("an accessor beyond its view", lambda it: it["accessors"][0].update(count=10**6), "accessors[0]", "bufferViews[0]"),
            ("a view beyond its buffer", lambda it: it["bufferViews"][1].update(byteLength=10**6), "bufferViews[1]", "buffers[0]"),
            ("a negative offset", lambda it: it["bufferViews"][1].update(byteOffset=-4), "bufferViews[1].byteOffset"),
            ("views that are no list", lambda it: it.update(bufferViews=7), "bufferViews"),
            ("attributes that are no object", lambda it: it["meshes"][0]["primitives"][0].update(attributes=[0]), "primitives[0]"),
            ("a cut buffer", lambda it: it["buffers"][0].update(byteLength=10**7), "buffers[0]"),
            ("a buffer of another folder", lambda it: it["buffers"][0].update(uri="../b.bin"), "buffers[0]", "folder"),
            ("a buffer whose name has a zero", lambda it: it["buffers"][0].update(uri="b%00.bin"), "buffers[0]", "folder"),
            ("a buffer of the network", lambda it: it["buffers"][0].update(uri="https://b.test/b.bin"), "buffers[0]", "folder"),
        ):
            made = net()
            change(made.json)
            self.refused(title, "pack", self.save("a.glb", made.glb()), *parts)
        for value in ("nan", "inf"):
            it = Maker()
            table = np.array([[0, 0, 0], [1, 0, 0], [0, 1, 0], [1, 1, 1]], "f4")
            table[2, 1] = float(value)
            path = self.save(
                "a.glb", it.scene({"attributes": {"POSITION": it.accessor(table, "f4")}, "indices": it.accessor([0, 1, 3], "<u2")}).glb()
            )
            self.refused(value, "pack", path, "meshes[0].primitives[0].POSITION", "2", value)
        path = self.save("a.glb", b"")
        self.tell(self.tool("pack", path.parent / "none.glb", path.parent / "out.glb").returncode == 3, "no input is status 3")
        self.damaged(packed.read_bytes())
        self.other_types(whole, "pack")
        self.other_types(packed.read_bytes(), "unpack")

    def other_types(self, data, command, step=5):
        """Members of the JSON as other types: a file, or one line and nothing; never a trace."""
        document, binary = read_glb(data)
        for k, (holder, key) in list(enumerate(places(document)))[::step]:
            was = holder[key]
            holder[key] = [None, "a", -1, [], {}, 1.5, [[]], True][k % 8]
            path = self.save("a.glb", write_glb(document, binary))
            holder[key] = was
            self.ends_well(f"{command}: {key} of another type", command, path)

    def damaged(self, data):
        """Changed bytes end in a file, or in one line and nothing; never in a trace."""
        for k in range(0, len(data), max(1, len(data) // 24)):
            self.ends_well(f"byte {k} changed", "unpack", self.save("a.glb", data[:k] + bytes([data[k] ^ (1 << k % 8)]) + data[k + 1 :]))

    def ends_well(self, title, command, path):
        ran = self.tool(command, path, path.parent / "out.glb")
        is_told = ran.returncode == 2 and ran.stderr.count(b"\n") == 1 and not (path.parent / "out.glb").exists()
        self.tell(ran.returncode == 0 or is_told, f"{title}: status {ran.returncode} {ran.stderr.decode()[-300:]}")

    def wrapped(self, stream, attributes):
        """A GLB with a stream that another program wrote: `attributes` has for each name its id, type and kind of components."""
        it = Maker()
        view = it.view(stream)
        for kind, number in attributes.values():
            it.json["accessors"].append({"componentType": number, "count": 0, "type": kind})
        it.json["accessors"].append({"componentType": 5123, "count": 0, "type": "SCALAR"})
        names = {name: k for k, name in enumerate(attributes)}
        extension = {DRACO: {"bufferView": view, "attributes": names}}
        it.json.update(extensionsUsed=[DRACO], extensionsRequired=[DRACO])
        return self.save("a.glb", it.scene({"attributes": names, "indices": len(names), "extensions": extension}).glb())

    def of_others(self):
        """Files of Google's draco are unpacked where they are in the profile, else refused with the primitive and the kind."""
        positions, normals, _, faces = sphere(8, 6)
        text = "".join(f"v {x} {y} {z}\n" for x, y, z in positions.tolist())
        plain = text + "".join("f {} {} {}\n".format(*face) for face in (faces.reshape(-1, 3) + 1).tolist())
        bent = text + "".join(f"vn {x} {y} {z}\n" for x, y, z in normals.tolist())
        bent += "".join("f {0}//{0} {1}//{1} {2}//{2}\n".format(*face) for face in (faces.reshape(-1, 3) + 1).tolist())
        for level in (0, 5, 7, 10):
            path = self.wrapped(self.encoded_there(plain, "-qp", "11", "-cl", str(level)), {"POSITION": ("VEC3", 5126)})
            back = path.parent / "back.glb"
            if self.done(f"the tool's level {level}", "unpack", path, back) is None:
                continue
            again = Document(back)
            tables, grids = on_grid([positions], [11])
            got = on_grid([again.rows(again.primitives()[0]["attributes"]["POSITION"])], [11], grids)[0]
            self.tell(
                triangles(tables, faces.reshape(-1, 3)) == triangles(got, again.faces(again.primitives()[0])),
                f"the tool's level {level}: the triangles",
            )
            self.tell(self.is_bounded(again, 0) and "min" in again.json["accessors"][0], f"the tool's level {level}: the bounds")
        stream = self.encoded_there(bent, "-cl", "7")
        path = self.wrapped(stream, {"POSITION": ("VEC3", 5126), "NORMAL": ("VEC3", 5126)})
        back = path.parent / "back.glb"
        if self.done("normals in octahedral coding", "unpack", path, back) is not None:
            again = Document(back)
            tables = [again.rows(again.primitives()[0]["attributes"][name]) for name in ("POSITION", "NORMAL")]
            coded = self.save("m.drc", stream)
            subprocess.run(["draco_decoder", "-i", coded, "-o", coded.with_suffix(".ply")], stdout=subprocess.DEVNULL, check=True)
            _, rows, corners = read_binary(coded.with_suffix(".ply").read_bytes())
            there = np.array(rows, np.float32)
            due = triangles([there[:, :3], there[:, 3:6]], np.array(corners))
            self.tell(due == triangles(tables, again.faces(again.primitives()[0])), "normals in octahedral coding: the tool's floats")
        path = self.wrapped(stream, {"POSITION": ("VEC3", 5126), "NORMAL": ("VEC2", 5126)})
        self.refused("normals of two components", "unpack", path, "meshes[0].primitives[0]", "NORMAL", "VEC2")
        path = self.wrapped(self.encoded_there(plain, "-cl", "7"), {"POSITION": ("VEC2", 5126)})
        self.refused("another type", "unpack", path, "meshes[0].primitives[0]", "POSITION", "VEC2")
        path = self.wrapped(self.encoded_there(plain, "-cl", "7"), {"POSITION": ("VEC3", 5126), "COLOR_0": ("VEC3", 5121)})
        self.refused("an id that isn't there", "unpack", path, "meshes[0].primitives[0]", "COLOR_0", "id 1")
        if shutil.which("draco_transcoder"):
            self.transcoded()

    def encoded_there(self, text, *words):
        path = self.save("m.obj", text.encode())
        subprocess.run(["draco_encoder", "-i", path, "-o", path.with_suffix(".drc"), *words], stdout=subprocess.DEVNULL, check=True)
        return path.with_suffix(".drc").read_bytes()

    def transcoded(self):
        """A GLB that the tool itself packed, and one of here that the tool reads."""
        path = self.save("a.glb", net(20).glb())
        theirs, back, packed = (path.parent / name for name in ("theirs.glb", "back.glb", "packed.glb"))
        tool = lambda a, b: subprocess.run(
            ["draco_transcoder", "-i", a, "-o", b], stdout=subprocess.DEVNULL, stderr=subprocess.DEVNULL, check=False
        ).returncode
        tool(path, theirs)
        self.tell(DRACO.encode() in theirs.read_bytes(), "draco_transcoder packs")
        self.done("draco_transcoder's file", "unpack", theirs, back)
        self.tell(
            back.exists() and len(Document(back).faces(Document(back).primitives()[0])) == 800, "draco_transcoder's file: the triangles"
        )
        self.done("for draco_transcoder", "pack", path, packed)
        self.tell(tool(packed, path.parent / "again.glb") == 0, "draco_transcoder reads a packed file")


def main():
    if len(sys.argv) != 2:
        sys.exit(__doc__)
    program = shutil.which(sys.argv[1]) or sys.exit(f"{sys.argv[1]} isn't a program")
    for name in ("draco_decoder", "assimp"):
        if not shutil.which(name):
            print(f"the readings by {name} are left out, which is missing")
    with tempfile.TemporaryDirectory() as folder:
        tests = Tests(program, pathlib.Path(folder))
        parts = [
            tests.kinds_of_files,
            tests.options,
            tests.forms,
            tests.left,
            tests.open_documents,
            tests.morphs,
            tests.degenerate,
            tests.borders,
            tests.methods,
            *[tests.octahedral] * Drc(program).writes_profile_three(),
            tests.many_points,
            tests.bad,
        ]
        for part in parts + [tests.of_others] * bool(shutil.which("draco_encoder")):
            part()
        if MODELS.is_dir():
            tests.models()
    if not Drc(program).writes_profile_three():
        print("octahedral normals are left out, since this program doesn't write profile 3")
    if not MODELS.is_dir():
        print("the models of assimp-testmodels are left out, which is missing")
    if not shutil.which("draco_encoder"):
        print("files of others are left out, since draco_encoder is missing")
    print(f"{tests.passed} passed, {tests.failed} failed")
    sys.exit(tests.failed > 0)


main()
