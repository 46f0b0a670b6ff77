#!/usr/bin/python3
"""Shows which inputs convert/drc-pack and convert/drc-unpack refuse, each by one line with its name and place, and that nothing is left then;
and what becomes of faces of many corners and of faces that collapse.

usage: tests/convert/test_input.py PROGRAM

PROGRAM is the built `drc`. The last line printed is 'N passed, M failed'; the exit status is 0 where M is 0.
"""
import math
import shutil
import struct

import mesh_cases  # noqa: F401  (which says where numpy is missing)
from drcfiles import faults, plytext
from mesh_cases import one_line, run, unwrapped


def bad_input(tests):
    box = "".join(f"v {x} {y} {z}\n" for x in (0, 1) for y in (0, 1) for z in (0, 1))
    head = "ply\nformat ascii 1.0\nelement vertex 3\nproperty float x\nproperty float y\nproperty float z\nelement face 1\nproperty list uchar int vertex_indices\nend_header\n"
    points = "0 0 0\n1 0 0\n0 1 0\n"
    whole = unwrapped().ply()
    solid = unwrapped().stl()
    cases = [
        ("nan.obj", b"v 0 0 0\nv nan 0 0\nv 0 1 0\nf 1 2 3\n", 2, ["nan.obj line 2", "isn't finite"]),
        ("infinite.obj", b"v 0 0 0\nv 1 0 0\nv 0 1e40 0\nf 1 2 3\n", 2, ["infinite.obj line 3", "isn't finite"]),
        ("normal.obj", b"v 0 0 0\nv 1 0 0\nv 0 1 0\nvn inf 0 0\nf 1//1 2//1 3//1\n", 2, ["normal.obj line 4", "a normal isn't finite"]),
        ("empty.obj", b"", 2, ["empty.obj", "no vertices"]),
        ("none.obj", box.encode(), 2, ["none.obj", "no faces", "--cloud"]),
        ("lines.obj", box.encode() + b"l 1 2\nf 1 2\n", 2, ["lines.obj", "no faces"]),
        ("range.obj", box.encode() + b"f 1 2 3\nf 1 2 9\n", 2, ["range.obj line 10", "the index 9 names no vertex, there are 8"]),
        ("zero.obj", box.encode() + b"f 0 1 2\n", 2, ["zero.obj line 9", "the index 0"]),
        ("behind.obj", box.encode() + b"f -9 1 2\n", 2, ["behind.obj line 9", "the index -9"]),
        ("texture.obj", box.encode() + b"vt 0 0\nf 1/1 2/2 3/1\n", 2, ["texture.obj line 10", "the index 2 names no texture coordinate"]),
        ("word.obj", b"v 0 0 zero\n", 2, ["word.obj line 1", "no number"]),
        ("short.obj", b"v 0 0 0\nv 1 0\n", 2, ["short.obj line 2", "2 numbers"]),
        ("nan.ply", (head + "0 0 0\nnan 0 0\n0 1 0\n3 0 1 2\n").encode(), 2, ["nan.ply", "position 1 isn't finite"]),
        ("range.ply", (head + points + "3 0 1 3\n").encode(), 2, ["range.ply", "face 0", "the index 3", "3 points"]),
        ("minus.ply", (head + points + "3 0 1 -1\n").encode(), 2, ["minus.ply", "face 0", "the index -1"]),
        ("half.ply", (head + points + "3 0 1 1.5\n").encode(), 2, ["half.ply", "face 0"]),
        ("cut.ply", (head + points[:-6]).encode(), 2, ["cut.ply is cut", "vertex 2"]),
        ("short.ply", (head + points + "3 0 1\n").encode(), 2, ["short.ply is cut", "face 0"]),
        ("word.ply", (head + "0 0 0\n1 x 0\n0 1 0\n3 0 1 2\n").encode(), 2, ["word.ply line 11", "x is no number"]),
        ("none.ply", (head.replace("face 1", "face 0") + points).encode(), 2, ["none.ply", "no faces"]),
        ("head.ply", head.replace("property float z\n", "property fload z\n").encode(), 2, ["head.ply line 6"]),
        ("names.ply", (head.replace("float x", "float a") + points + "3 0 1 2\n").encode(), 2, ["names.ply", "no properties x, y, z"]),
        ("noply.ply", b"obj\n", 2, ["noply.ply", "no PLY header"]),
        ("heads.ply", b"ply\nformat ascii 1.0\ncomment drc attr 0 0 5 2 0 0\nelement vertex 1\nproperty int x\nend_header\n1\n", 2, ["heads.ply", "drc attr"]),
        ("faces.ply", whole[:-40], 2, ["faces.ply is cut", "face"]),
        ("points.ply", whole[:600], 2, ["points.ply is cut", "vertex"]),
        ("cut.stl", solid[:-1], 2, ["cut.stl is cut", "declares"]),
        ("small.stl", solid[:50], 2, ["small.stl is cut"]),
        ("text.stl", unwrapped().stl(is_text=True)[:-30], 2, ["text.stl is cut", "endsolid"]),
        ("nan.stl", solid[:96] + struct.pack("<f", math.nan) + solid[100:], 2, ["nan.stl", "isn't finite"]),
        ("same.obj", b"v 0 0 0\nv 0 0 0\nv 0 1 0\nv 1 0 0\nf 1 2 3\nf 1 1 4\n", 2, ["same.obj", "refused Degenerate 0", "each of 2 faces", "--keep-degenerate"]),
        ("great.ply", (head.replace("property float z", "property float z\nproperty uint id") + "0 0 0 1\n1 0 0 3000000000\n0 1 0 2\n3 0 1 2\n").encode(), 2,
         ["great.ply", "id has 3000000000", "--skip generic"]),
        ("wide.obj", b"v -3e38 0 0\nv 3e38 0 0\nv 0 1 0\nf 1 2 3\n", 2, ["wide.obj", "too far apart"]),
    ]
    if shutil.which("assimp"):
        binary = unwrapped().glb()
        cases += [
            ("cut.glb", binary[:-1], 2, ["cut.glb", "is cut", f"declares {len(binary)} bytes, here are {len(binary) - 1}"]),
            ("small.glb", binary[:11], 2, ["small.glb", "is cut"]),
            ("garbled.glb", binary[:30] + b"\xff" * 20 + binary[50:], 2, ["garbled.glb", "JSON"]),
            ("mesh.xyzzy", b"", 2, ["mesh.xyzzy", "ending"]),
            ("bad.fbx", b"Kaydara FBX Binary  \0", 2, ["bad.fbx", "assimp can't read it"]),
        ]
    for name, data, status, parts in cases:
        source = tests.file(name, data)
        place = tests.folder / "made"
        place.mkdir()
        ran = tests.run("drc-pack", source, "-o", place / "out.drc", "--map", place / "out.map")
        one_line(tests, name, ran, status, "drc-pack: ", *parts)
        tests.tell(not list(place.iterdir()), f"{name}: nothing is left")
        shutil.rmtree(place)
        source.unlink()
    good = tests.file("good.obj", unwrapped().obj())
    one_line(tests, "no such file", tests.run("drc-pack", tests.folder / "nothing.obj", "-o", tests.folder / "x.drc"), 3, "can't be read")
    one_line(tests, "no such folder", tests.run("drc-pack", good, "-o", tests.folder / "nowhere/x.drc"), 4, "can't be written")
    one_line(tests, "a map without a folder", tests.run("drc-pack", good, "-o", tests.folder / "x.drc", "--map", tests.folder / "nowhere/x.map"), 4, "can't be written")
    tests.tell(not (tests.folder / "x.drc").exists() and not list(tests.folder.glob(".*.part")), "no stream is left where the map fails")
    one_line(tests, "the input as output", tests.run("drc-pack", good, "-o", good), 1, "an input is never written over")
    tests.tell(good.read_bytes() == unwrapped().obj(), "an input is never written over")
    one_line(tests, "bits", tests.run("drc-pack", good, "-o", tests.folder / "x.drc", "--qp", 31), 1, "--qp", "1 to 30")
    one_line(tests, "options that don't fit", tests.run("drc-pack", good, "-o", tests.folder / "x.drc", "--method", "seq", "--predict", "para"), 2, "refused Choice 2", "--walk")
    one_line(tests, "no program", tests.run("drc-pack", good, "-o", tests.folder / "x.drc", "--drc", tests.folder / "nothing"), 70, "--drc")
    stream = tests.packed("good", good).read_bytes()
    for title, data, parts in (("cut.drc", stream[:30], ["refused Short", faults.faults()["Short"].means]), ("other.drc", b"ply\nformat", ["refused Magic 0"]),
                               ("empty.drc", b"", ["refused"])):
        out = tests.folder / "y.obj"
        one_line(tests, title, tests.run("drc-unpack", tests.file(title, data), "-o", out), 2, "drc-unpack: ", title, *parts)
        tests.tell(not out.exists(), f"{title}: nothing is left")
    one_line(tests, "an ending", tests.run("drc-unpack", tests.folder / "packed.drc", "-o", tests.folder / "y.xyz"), 1, ".xyz")


def splits(tests):
    """Faces of more corners become fans, said on standard error."""
    quads = b"v 0 0 0\nv 1 0 0\nv 1 1 0\nv 0 1 0\nv 2 0 0\nv 2 1 0\nf 1 2 3 4\nf 2 5 6 3\nf 1 4 3\nf 1 2 5 6 3 4\n"
    ran = tests.run("drc-pack", tests.file("quads.obj", quads), "-o", tests.folder / "q.drc", "--method", "seq")
    tests.tell(ran.returncode == 0 and b"3 faces of more than three corners split into 8 triangles" in ran.stderr, "splitting is said")
    geometry = plytext.read_text(tests.drc(["dec"], (tests.folder / "q.drc").read_bytes()).stdout)
    wanted = [(0, 1, 2), (0, 2, 3), (1, 4, 5), (1, 5, 2), (0, 3, 2), (0, 1, 4), (0, 4, 5), (0, 5, 2), (0, 2, 3)]
    place = lambda k: tuple(int(it) for it in geometry.values[0][k])
    at = {k: tuple(int(round(it * 16383 / 2)) for it in row) for k, row in enumerate([(0, 0, 0), (1, 0, 0), (1, 1, 0), (0, 1, 0), (2, 0, 0), (2, 1, 0)])}
    near = all(max(abs(a - b) for a, b in zip(place(k), at[w])) <= 1 for face, want in zip(geometry.faces.tolist(), wanted) for k, w in zip(face, want))
    tests.tell(len(geometry.faces) == 9 and near, "a face of six corners is a fan from its first corner")
    text = b"ply\nformat ascii 1.0\nelement vertex 4\nproperty float x\nproperty float y\nproperty float z\nelement face 2\nproperty list uchar int vertex_index\nproperty uchar flag\nend_header\n0 0 0\n1 0 0\n1 1 0\n0 1 0\n4 0 1 2 3 7\n3 0 2 3 9\n"
    ran = tests.run("drc-pack", tests.file("quads.ply", text), "-o", tests.folder / "q.drc", "--force")
    tests.tell(ran.returncode == 0 and b"1 face of more than three corners split into 2 triangles" in ran.stderr and b"flag" in ran.stderr, "faces of a text of PLY")


run(bad_input, splits)
