#!/usr/bin/python3
"""Shows what convert/drc-pack and convert/drc-unpack do: floats within half a step, in each format and by each method, heads, options, maps.

usage: tests/convert/test_mesh.py PROGRAM

PROGRAM is the built `drc`. The last line printed is 'N passed, M failed'; the exit status is 0 where M is 0.
"""
import collections
import json
import os
import pathlib
import pty
import random
import re
import shutil
import struct
import subprocess
import sys

import mesh_cases  # noqa: F401  (which says where numpy is missing)
import numpy as np
from drcfiles import faults, plytext
from drcfiles.reading import ply as ply_reader
from mesh_cases import CONVERT, METHODS, MODELS, TOP, Made, coloured, comes_back, corner_rows, made, one_line, run, scan_like, scans, turned, unwrapped, within_half_a_step


def formats_come_back(tests):
    has_assimp = bool(shutil.which("assimp"))
    if not has_assimp:
        tests.skip("GLB", "assimp")
    for mesh in made():
        ways = [("m.obj", mesh.obj(), ("positions", "normals", "textures")), ("m.ply", mesh.ply(), ("positions", "normals", "textures", "colours")),
                ("t.ply", mesh.ply(is_text=True), ("positions", "normals", "textures", "colours")),
                ("b.ply", mesh.ply(big=True), ("positions", "normals", "textures", "colours"))]
        ways += [("m.stl", mesh.stl(), ("positions",)), ("t.stl", mesh.stl(is_text=True), ("positions",))]
        if has_assimp:
            ways.append(("m.glb", mesh.glb(), ("positions", "normals", "textures")))
        for name, data, has in ways:  # faces that the grid makes degenerate are kept, so that the map has each
            comes_back(tests, mesh, name, data, ["--keep-degenerate"], has)
        for words in METHODS:
            if mesh.name != "awkward" or "seq" in words:
                comes_back(tests, mesh, "m.ply", mesh.ply(), [*words, "--keep-degenerate"], ("positions", "normals", "textures", "colours"))


def clouds(tests):
    """A cloud keeps its points in their order, each within half a step."""
    draw = random.Random(2)
    rows = np.array([[draw.gauss(0, 3) for _ in range(3)] for _ in range(300)], np.float32)
    head = "ply\nformat binary_little_endian 1.0\nelement vertex 300\nproperty float x\nproperty float y\nproperty float z\nproperty uchar label\nend_header\n"
    data = head.encode() + b"".join(row.tobytes() + bytes([k % 7]) for k, row in enumerate(rows))
    for title, source, words in (("cloud", tests.file("cloud.ply", data), []), ("points of a mesh", tests.file("m.ply", scan_like(5).ply()), ["--cloud"])):
        stream = tests.packed(title, source, *words)
        back = stream and tests.unpacked(title, stream)
        if back:
            found = ply_reader.read(back)
            wanted = rows if title == "cloud" else scan_like(5).positions
            tests.tell(found.faces is None and found.points == len(wanted), f"{title}: as many points")
            within_half_a_step(tests, title, wanted[:, None, :], found.attributes[0].values[:, None, :], 14)
            if title == "cloud":
                tests.tell(found.attributes[1].values.ravel().tolist() == [k % 7 for k in range(300)], f"{title}: its labels")
    ran = tests.run("drc-unpack", stream, "-o", tests.folder / "cloud.stl")
    tests.tell(ran.returncode == 2 and b"no triangles" in ran.stderr and not (tests.folder / "cloud.stl").exists(), "a cloud is refused as STL")


def obj_triangles(data):
    at, faces = [], []
    for line in data.decode().splitlines():
        words = line.split()
        if words[:1] == ["v"]:
            at.append(np.array([float(it) for it in words[1:4]], np.float32).tobytes())
        elif words[:1] == ["f"]:
            faces.append(tuple(at[int(it.split("/")[0]) - 1] for it in words[1:]))
    return turned(faces)


def stl_triangles(data):
    count = struct.unpack_from("<I", data, 80)[0]
    return turned([tuple(data[84 + 50 * k + 12 + 12 * j : 84 + 50 * k + 24 + 12 * j] for j in range(3)) for k in range(count)])


def text_stl_triangles(data):
    rows = [np.array(it.split()[1:], np.float32).tobytes() for it in data.decode().splitlines() if it.strip().startswith("vertex")]
    return turned([tuple(rows[k : k + 3]) for k in range(0, len(rows), 3)])


def glb_triangles(data):
    length = struct.unpack_from("<I", data, 12)[0]
    document, binary = json.loads(data[20 : 20 + length]), data[28 + length :]
    primitive = document["meshes"][0]["primitives"][0]

    def bytes_of(number):
        accessor = document["accessors"][number]
        return accessor, binary[document["bufferViews"][accessor["bufferView"]]["byteOffset"] :]

    at, places = bytes_of(primitive["attributes"]["POSITION"])
    indices, numbers = bytes_of(primitive["indices"])
    kind = {5123: "<u2", 5125: "<u4"}[indices["componentType"]]
    faces = np.frombuffer(numbers, kind, indices["count"]).reshape(-1, 3)
    table = np.frombuffer(places, "<f4", 3 * at["count"]).reshape(-1, 3)
    low, high = np.array(at["min"], np.float32), np.array(at["max"], np.float32)
    assert (low == table.min(axis=0)).all() and (high == table.max(axis=0)).all()
    return turned(corner_rows([table], faces))


def other_formats(tests):
    """Each format has the same floats bit for bit, read by this file, and as many triangles by assimp."""
    for mesh in (unwrapped(), coloured(), scan_like(12)):
        stream = tests.packed(mesh.name, tests.file("m.ply", mesh.ply()))
        plain = stream and tests.unpacked(mesh.name, stream)
        if not plain:
            continue
        wanted = ply_reader.read(plain)
        positions = turned(corner_rows([wanted.attributes[0].values], wanted.faces))
        for ending, words, triangles in ((".obj", [], obj_triangles), (".stl", [], stl_triangles), (".stl", ["--ascii"], text_stl_triangles), (".glb", [], glb_triangles)):
            title = f"{mesh.name} {ending} {' '.join(words)}"
            made_file = tests.unpacked(title, stream, ending, *words)
            if made_file:
                tests.tell(triangles(made_file.read_bytes()) == positions, f"{title}: the same triangles")
                if shutil.which("assimp"):
                    said = subprocess.run(["assimp", "info", str(made_file)], stdout=subprocess.PIPE, stderr=subprocess.STDOUT, check=False).stdout.decode("utf-8", "replace")
                    found = re.search(r"Faces:\s+(\d+)", said)
                    tests.tell(found and int(found[1]) == len(mesh.faces), f"{title}: assimp reads as many triangles")
        text = tests.unpacked(mesh.name, stream, ".ply", "--ascii")
        if text:
            again = ply_reader.read(text)
            bits = lambda mesh: [(it.usage, it.values.astype(np.float32 if it.values.dtype.kind == "f" else it.values.dtype).tobytes()) for it in mesh.attributes]
            same = bits(again) == bits(wanted)
            tests.tell(same and (again.faces == wanted.faces).all(), f"{mesh.name}: PLY as text")
        # all of an OBJ's attributes come back: packed once more, it is the same set of integers
        whole = tests.unpacked(mesh.name, stream, ".obj")
        again = whole and tests.packed(f"{mesh.name} again", whole)
        if again and mesh.colours is None:
            tests.tell(len(plytext.read_text(tests.drc(["dec"], again.read_bytes()).stdout).heads) == len(wanted.attributes), f"{mesh.name}: an OBJ has all attributes")


def heads_are_kept(tests):
    """A text of the codec packs as `drc enc` encodes it, heads and all; integers stay integers."""
    text = (TOP / "examples/mesh.ply").read_bytes()
    stream = tests.packed("mesh.ply", TOP / "examples/mesh.ply")
    tests.tell(stream.read_bytes() == tests.drc(["enc"], text).stdout, "a text without heads is encoded as it is")
    dec = tests.drc(["dec"], tests.packed("floats", tests.file("m.obj", unwrapped().obj()), "--method", "seq").read_bytes()).stdout
    stream = tests.packed("a text of dec", tests.file("dec.ply", dec), "--method", "seq")
    tests.tell(tests.drc(["dec"], stream.read_bytes()).stdout == dec, "a text of `drc dec` comes back byte for byte")


def options_and_map(tests):
    source = tests.file("m.obj", unwrapped().obj())
    for words, kind in ((["--method", "seq"], "seq"), (["--method", "eb"], "eb"), (["--method", "valence", "--predict", "diff"], "valence"), ([], "eb")):
        stream = tests.packed(" ".join(words), source, *words)
        tests.tell(tests.drc(["info"], stream.read_bytes()).stdout.decode().split("\n")[0].split()[-1] == kind, f"{words}: the method")
    rows, text = tests.folder / "m.map", tests.folder / "m.ply"
    stream = tests.packed("a map", source, "--map", rows, "--text", text)
    ran = tests.drc(["enc"], text.read_bytes())
    tests.tell(ran.stderr == rows.read_bytes() and ran.stdout == stream.read_bytes(), "the map and the text are those of enc")
    place = tests.folder / "alone"
    place.mkdir()
    ran = tests.run("drc-pack", source, "-o", place / "x.drc")
    tests.tell([it.name for it in place.iterdir()] == ["x.drc"] and not ran.stderr and b"greatest error" in ran.stdout, "no map without --map; sizes and errors are printed")
    ran = tests.run("drc-pack", source, "-o", place / "x.drc", "-q", "--force")
    tests.tell(ran.returncode == 0 and not ran.stdout and not ran.stderr, "--quiet prints nothing")
    for name in ("drc-pack", "drc-unpack", "drc-many"):
        ran = tests.run(name, "--help")
        tests.tell(ran.returncode == 0 and b"proved" in ran.stdout and not ran.stderr, f"{name} --help")
        tests.tell(tests.run(name, "--no-such-word").returncode == 1, f"{name}: bad words end with status 1")


def small_extents(tests):
    """Extents near the least floats, all at one place, and far from the origin: within half a step, without a warning."""
    for title, low, wide in (("denormal", 0.0, 1e-42), ("tiny", 0.0, 1e-36), ("one place", 5.5, 0.0), ("far away", 1e7, 3.0)):
        rows = [(low + wide * x, low + wide * y, low) for x, y in ((0, 0), (1, 0), (0, 1), (0.3, 0.7))]
        mesh = Made(title, rows, [(0, 1, 2), (1, 3, 2)])
        ran = tests.run("drc-pack", tests.file("m.ply", mesh.ply()), "-o", tests.folder / "m.drc", "--method", "seq", "--keep-degenerate", "--force")
        tests.tell(ran.returncode == 0 and not ran.stderr, f"{title}: {ran.stderr.decode()}")
        back = tests.unpacked(title, tests.folder / "m.drc")
        error = float(np.abs(ply_reader.read(back).attributes[0].values.astype(np.float64) - mesh.positions).max())
        step = float(plytext.read_text(tests.drc(["dec"], (tests.folder / "m.drc").read_bytes()).stdout).heads[0].grid.step)
        tests.tell(error <= 0.51 * step + float(np.spacing(np.float32(low + wide))), f"{title}: error {error}, step {step}")


def finding(tests):
    """The program is that of --drc, of the variable DRC, the repository's own, that of the PATH."""
    source, out = tests.file("m.obj", unwrapped(3).obj()), tests.folder / "f.drc"
    without = {name: value for name, value in os.environ.items() if name != "DRC"}
    place = tests.folder / "bin"
    place.mkdir(exist_ok=True)
    (place / "drc").unlink(missing_ok=True)
    (place / "drc").symlink_to(os.path.abspath(tests.program))
    run = lambda words, environment: subprocess.run([sys.executable, str(CONVERT / "drc-pack"), str(source), "-o", str(out), "--force", *words], env=environment,
                                                    stdout=subprocess.PIPE, stderr=subprocess.PIPE, check=False).returncode
    tests.tell(run(["--drc", tests.program], {**without, "DRC": "/nothing"}) == 0, "--drc comes before the variable DRC")
    tests.tell(run([], {**without, "DRC": "/nothing", "PATH": f"{place}:{os.environ['PATH']}"}) == 70, "the variable DRC comes before the PATH")
    tests.tell(run([], {**without, "PATH": f"{place}:{os.environ['PATH']}"}) == 0, "the PATH")


def progress(tests):
    """On a terminal a line says what is done while it takes long, and is taken away; else there is none. The program is slowed down for it."""
    source = tests.file("large.obj", scan_like(220).obj())
    slow = tests.folder / "slow"
    slow.write_text(f'#!/bin/sh\nsleep 2\nexec "{os.path.abspath(tests.program)}" "$@"\n')
    slow.chmod(0o755)
    words = [sys.executable, str(CONVERT / "drc-pack"), str(source), "-o", str(tests.folder / "l.drc"), "-q", "--force"]
    first, second = pty.openpty()
    running = subprocess.Popen(words, stderr=second, stdout=subprocess.DEVNULL, env={**tests.environment, "DRC": str(slow)})
    os.close(second)
    said = b""
    while True:
        try:
            part = os.read(first, 4096)
        except OSError:
            break
        if not part:
            break
        said += part
    os.close(first)
    tests.tell(running.wait() == 0 and b"\rdrc-pack" not in said.replace(b"\r\x1b[K", b"") and b"large.obj: encoding" in said and said.endswith(b"\r\x1b[K"), f"a line of progress on a terminal: {said[-200:]}")
    ran = subprocess.run(words, stderr=subprocess.PIPE, stdout=subprocess.DEVNULL, env=tests.environment, check=False)
    tests.tell(ran.returncode == 0 and not ran.stderr, "no line of progress elsewhere")


def words_of_faults(tests):
    """docs/FAULTS.md has exactly the kinds of the program's source, each with its four cells."""
    source = (TOP / "crates/drc_base/src/kinds.rt").read_text()
    kinds = re.findall(r'Kind::(\w+) => "(\w+)"', source)
    rows = re.findall(r"^\| `(\w+)` \| (.+?) \| (.+?) \| (.+?) \|$", (TOP / "docs/FAULTS.md").read_text(), re.M)
    count = collections.Counter(row[0] for row in rows)
    tests.tell(kinds and {word for _, word in kinds} == set(count) and set(count.values()) == {1}, f"the kinds of docs/FAULTS.md: {set(count) ^ {word for _, word in kinds}}")
    tests.tell(set(faults.faults()) == set(count) and all(all(it) for it in faults.faults().values()), "the programs read each row")


def real_files(tests):
    """Models of Debian's packages, packed and unpacked."""
    for name, source in scans(tests):
        stream = tests.packed(name, source, "--text", tests.folder / "real.ply")
        back = stream and tests.unpacked(name, stream)
        if not back:
            continue
        wanted = plytext.read_text((tests.folder / "real.ply").read_bytes())
        found_mesh = ply_reader.read(back)
        tables = [wanted.floats(k) for k in range(len(wanted.heads))]
        tests.tell(turned(corner_rows(tables, wanted.faces)) == turned(corner_rows([it.values for it in found_mesh.attributes], found_mesh.faces)), f"{name}: the triangles come back")
        at, faces = obj_by_hand(pathlib.Path(source).read_text(errors="replace"))
        proper = [face for face in faces if len({at[k].tobytes() for k in face}) == 3]
        grid = wanted.heads[0].grid
        error = max(float(np.abs(at.astype(np.float64) - (nearest(at, grid))).max()), 0)
        tests.tell(error <= float(grid.step) * 0.5001 + 4 * float(np.spacing(np.float32(np.abs(at).max()))), f"{name}: within half a step")
        tests.tell(len(proper) >= len(found_mesh.faces) >= 0.99 * len(proper), f"{name}: as many triangles but those that the grid makes degenerate")


def obj_by_hand(text):
    at, faces = [], []
    for line in text.splitlines():
        words = line.split()
        if words[:1] == ["v"]:
            at.append([float(it) for it in words[1:4]])
        elif words[:1] == ["f"]:
            corners = [int(it.split("/")[0]) - 1 for it in words[1:]]
            faces += [(corners[0], corners[k], corners[k + 1]) for k in range(1, len(corners) - 1)]
    return np.array(at, np.float64).astype(np.float32), faces


def nearest(at, grid):
    from drcfiles import grids

    return grids.to_floats(grids.to_integers(at, grid), grid)


def others(tests):
    """Formats that assimp reads."""
    if shutil.which("assimp") and MODELS.exists():
        for name in ("FBX/box.fbx", "FBX/spider.fbx", "glTF2/BoxTextured-glTF-Binary/BoxTextured.glb"):
            stream = tests.packed(name, MODELS / name)
            if stream:
                tests.tell(tests.unpacked(name, stream) is not None, name)
        one_line(tests, "infinite.glb", tests.run("drc-pack", MODELS / "glTF2/BoxWithInfinites-glTF-Binary/BoxWithInfinites.glb", "-o", tests.folder / "x.drc"), 2, "isn't finite")


run(words_of_faults, heads_are_kept, options_and_map, small_extents, finding, clouds, other_formats, others, formats_come_back, real_files, progress)
