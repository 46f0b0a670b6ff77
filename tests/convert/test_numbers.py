#!/usr/bin/python3
"""Shows that the errors that convert/drc-pack prints are the errors: no number that comes back is further off than it says, against the
numbers of the file, in doubles. And what becomes of faces that collapse on the grid.

usage: tests/convert/test_numbers.py PROGRAM

PROGRAM is the built `drc`. The last line printed is 'N passed, M failed'; the exit status is 0 where M is 0.
"""
import math
import random
import re
import shutil
import subprocess

import mesh_cases  # noqa: F401  (which says where numpy is missing)
import numpy as np
from drcfiles import plytext
from drcfiles.glb import read_glb
from mesh_cases import map_rows, one_line, run, scan_like, unwrapped

MAP = (5400000.456, 3600000.789, 123.25)  # metres east and north, and a height


def surface(low, wide, side=8, seed=1):
    """Rows of decimal numbers from `low` on, about `wide` each way, and faces."""
    draw = random.Random(seed)
    rows = [tuple(f"{low[k] + wide * it:.9f}" for k, it in enumerate((i / side + draw.random() / 99, j / side + draw.random() / 99, math.sin(i * j / 9) / 3)))
            for j in range(side + 1) for i in range(side + 1)]
    at = lambda i, j: j * (side + 1) + i
    return rows, [it for j in range(side) for i in range(side) for it in ((at(i, j), at(i + 1, j), at(i + 1, j + 1)), (at(i, j), at(i + 1, j + 1), at(i, j + 1)))]


def obj(rows, faces):
    return ("".join(f"v {' '.join(row)}\n" for row in rows) + "".join("f %d %d %d\n" % tuple(it + 1 for it in face) for face in faces)).encode()


def text_ply(rows, faces, kind="double"):
    head = f"ply\nformat ascii 1.0\nelement vertex {len(rows)}\n" + "".join(f"property {kind} {it}\n" for it in "xyz") + f"element face {len(faces)}\nproperty list uchar int vertex_indices\nend_header\n"
    return (head + "".join(f"{' '.join(row)}\n" for row in rows) + "".join("3 %d %d %d\n" % it for it in faces)).encode()


def binary_ply(rows, faces, kind):
    head = f"ply\nformat binary_little_endian 1.0\nelement vertex {len(rows)}\n" + "".join(f"property {'double' if kind == 'f8' else 'float'} {it}\n" for it in "xyz")
    head += f"element face {len(faces)}\nproperty list uchar int vertex_indices\nend_header\n"
    return head.encode() + np.array(rows, np.float64).astype(f"<{kind}").tobytes() + b"".join(b"\3" + np.array(it, "<i4").tobytes() for it in faces)


def numbers_of_obj(data):
    return np.array([[float(it) for it in line.split()[1:4]] for line in data.decode().splitlines() if line.startswith("v ")])


def numbers_of_text_ply(data):
    head, _, body = data.decode().partition("end_header\n")
    count = int(re.search(r"element vertex (\d+)", head)[1])
    return np.array([[float(it) for it in line.split()[:3]] for line in body.splitlines()[:count]])


def printed(ran, what="position"):
    """The bits, the step, the error in doubles and, where it is another one, the error in floats of 32 bits, as drc-pack prints them."""
    found = re.search(rf"{what}: (\d+) bits?, step (\S+), greatest error (\S+)(?: in doubles, (\S+) in floats of 32 bits)?\n", ran.stdout.decode())
    return found and (int(found[1]), float(found[2]), float(found[3]), float(found[4] or found[3]))


def packed(tests, title, name, data, *words):
    out = tests.folder / "numbers.drc"
    ran = tests.run("drc-pack", tests.file(name, data), "-o", out, "--force", "--method", "seq", "--keep-degenerate", *words)
    tests.tell(ran.returncode == 0, f"{title}: {ran.stderr.decode()}")
    return out, ran


def errors(tests):
    """Numbers in map coordinates and elsewhere come back within the printed error: by drc-unpack against the numbers of the file, in
    doubles, and by a reader of floats of 32 bits, here by its own arithmetic and by draco_decoder."""
    places = (("map", MAP, 1.04), ("town", MAP, 900.0), ("country", MAP, 250000.0), ("behind 0", (-5400000.456, -1e7 / 3, -99.9), 12.0), ("small", (0.1, 0.2, 0.3), 1e-6), ("plain", (0.0, 0.0, 0.0), 1.0),
              ("flat", (5400000.456, 5400000.456, 7.7), 0.0), ("dot", (1e9 / 3, 1e9 / 7, 0.0), 1e-4))
    made = {name: surface(low, wide) for name, low, wide in places}
    cases = [(name, form, bits) for name in made for form, bits in (("obj", 14), ("ply", 20))]
    cases += [("map", "f8", 14), ("map", "f4", 14), ("map", "obj", 8), ("map", "obj", 30), ("town", "ply", 30), ("dot", "obj", 30)]
    for name, form, bits in cases:
        title = f"{name} {form} --qp {bits}"
        rows, faces = made[name]
        read = np.array([[float(it) for it in row] for row in rows])
        data = {"obj": obj, "ply": text_ply}[form](rows, faces) if form in ("obj", "ply") else binary_ply(rows, faces, form)
        if form == "obj":  # whose points are those of the faces, in the order in which these name them
            read = read[list(dict.fromkeys(np.ravel(faces).tolist()))]
        if form == "f4":
            read = read.astype(np.float32).astype(np.float64)  # the file has no more
        stream, ran = packed(tests, title, f"numbers.{form if form == 'obj' else 'ply'}", data, "--qp", bits)
        said = printed(ran)
        tests.tell(bool(said), f"{title}: an error is printed: {ran.stdout}")
        if not said:
            continue
        _, step, error, in_floats = said
        found = numbers_of_text_ply(tests.unpacked(title, stream, ".ply", "--ascii").read_bytes())
        off = float(np.abs(found - read).max())
        tests.tell(off <= error, f"{title}: a PLY is {off} off, and {error} is printed")
        if form == "obj" and bits == 14:  # an OBJ lists equal places once
            found = numbers_of_obj(tests.unpacked(title, stream, ".obj").read_bytes())
            off = max(float(np.abs(found - row).max(axis=1).min()) for row in read)
            tests.tell(off <= error, f"{title}: an OBJ is {off} off, and {error} is printed")
        geometry = plytext.read_text(tests.drc(["dec"], stream.read_bytes()).stdout)
        off = float(np.abs(geometry.floats(0).astype(np.float64) - read).max())
        tests.tell(off <= in_floats, f"{title}: in floats of 32 bits {off} off, and {in_floats} is printed")
        lost = float(np.abs(read - read.astype(np.float32)).max())
        extent = float((read.max(axis=0) - read.min(axis=0)).max()) or 1.0
        is_said = "floats of 32 bits lose up to" in ran.stderr.decode()
        tests.tell(is_said == (lost > extent / ((1 << bits) - 1) / 2), f"{title}: a line says where floats of 32 bits lose more than half a step: {ran.stderr.decode()}")
        if is_said:
            tests.tell(error <= step * 0.5000001 + 1e-9 * extent and (step <= 1.0001 * extent / ((1 << bits) - 1) or "in place of" in ran.stderr.decode()), f"{title}: half a step of {step}: {error}")
            tests.tell(geometry.values[0].min() >= 0 and geometry.values[0].max() < 1 << geometry.heads[0].grid.bits, f"{title}: the integers are those of the grid's bits")
    stream, ran = packed(tests, "map", "map.obj", obj(*surface(MAP, 1.04)))
    ran = tests.run("drc-unpack", stream, "-o", tests.folder / "map.stl", "--force")
    tests.tell(ran.returncode == 0 and "off in STL" in ran.stderr.decode() and "PLY and OBJ have doubles" in ran.stderr.decode(), f"a line says what the floats of an STL lose: {ran.stderr.decode()}")
    ran = tests.run("drc-unpack", stream, "-o", tests.folder / "map.glb", "--force")
    document, binary = read_glb((tests.folder / "map.glb").read_bytes())
    local = np.frombuffer(binary, "<f4", 3 * 81).reshape(-1, 3).astype(np.float64)
    rows, faces = surface(MAP, 1.04)
    wanted = np.array(rows, np.float64)[list(dict.fromkeys(np.ravel(faces).tolist()))]
    off = float(np.abs(local + document["nodes"][0]["translation"] - wanted).max())
    tests.tell(ran.returncode == 0 and off <= printed(packed(tests, "map", "map.obj", obj(*surface(MAP, 1.04)))[1])[2] + 1e-7, f"a GLB's node and positions are {off} off")
    tests.tell("to which the node moves them" in ran.stderr.decode(), f"a line says so: {ran.stderr.decode()}")
    if shutil.which("draco_decoder"):
        there = tests.folder / "there.ply"
        said = printed(packed(tests, "map", "map.obj", obj(*surface(MAP, 1.04)))[1])
        subprocess.run(["draco_decoder", "-i", str(stream), "-o", str(there)], stdout=subprocess.DEVNULL, stderr=subprocess.DEVNULL, check=True)
        head, _, body = there.read_bytes().partition(b"end_header\n")
        found = np.frombuffer(body, "<f4", 3 * 81).reshape(-1, 3).astype(np.float64)
        off = float(np.abs(found - wanted).max())
        tests.tell(off <= said[3], f"draco_decoder is {off} off, and {said[3]} is printed")
    seen = re.sub(rb"f (\d+) (\d+) (\d+)", rb"f \1/1 \2/2 \3/1", obj(rows, faces)) + b"vt 5400000.456 0.1\nvt 5400001.5 0.7\n"
    _, ran = packed(tests, "texture coordinates", "t.obj", seen)
    tests.tell("texture coordinate: floats of 32 bits lose" in ran.stderr.decode(), f"texture coordinates likewise: {ran.stderr.decode()}")


def sliver(count):
    """A plate of unit squares, with so many slivers, whose corners are too near for a grid of few bits, along its diagonal."""
    rows, faces = [], []
    for k in range(count):
        first = len(rows)
        rows += [(k, k, 0), (k + 1, k, 0), (k, k + 1, 0), (k + 1e-7, k, 0)]
        faces += [(first, first + 1, first + 2), (first, first + 3, first + 2)]
    return [tuple(f"{it:.9f}" for it in row) for row in rows], faces


def collapse(tests):
    """Faces that collapse are left out and counted, the text names them, and `verify` says yes; --keep-degenerate keeps them."""
    rows, faces = sliver(40)
    source = tests.file("sliver.obj", obj(rows, faces))
    stream, text, moves = (tests.folder / f"sliver.{it}" for it in ("drc", "txt", "map"))
    for words in ([], ["--method", "valence"], ["--method", "seq"], ["--drop-degenerate"]):
        title = f"slivers {' '.join(words)}"
        ran = tests.run("drc-pack", source, "-o", stream, "--text", text, "--map", moves, "--force", *words)
        tests.tell(ran.returncode == 0 and "40 faces of 80 left out, with two corners at one place of the grid; --keep-degenerate keeps them" in ran.stderr.decode(), f"{title}: {ran.stderr.decode()}")
        geometry = plytext.read_text(tests.drc(["dec"], stream.read_bytes()).stdout)
        tests.tell(len(geometry.faces) == 40 == len(map_rows(moves)), f"{title}: as many faces as are left")
        named = [int(it) for line in text.read_text().splitlines() if re.fullmatch(r"comment drc-pack left out [\d ]+", line) for it in line.split()[4:]]
        tests.tell(named == list(range(1, 80, 2)) and "comment drc-pack left out 40 of 80 faces\n" in text.read_text(), f"{title}: the text names the faces that were left out")
        ran = tests.drc(["verify"], moves.read_bytes() + b"ply %d\n" % text.stat().st_size + text.read_bytes() + stream.read_bytes())
        tests.tell(ran.returncode == 0 and ran.stdout == b"same 40\n", f"{title}: verify: {ran.stdout} {ran.stderr}")
        kept = [face for k, face in enumerate(faces) if k not in named]
        wanted = np.array(rows, np.float64)[np.array(kept)]
        found = np.asarray(geometry.numbers(0), np.float64)[geometry.faces]
        rows_of = map_rows(moves)
        stood = wanted[rows_of[:, 0:1], (np.arange(3)[None, :] + rows_of[:, 1:2]) % 3]
        tests.tell(np.abs(stood - found).max() <= 40 / 16383 * 0.51, f"{title}: each face by the map")
    for words in ([], ["--method", "valence", "--walk", "degree", "--predict", "multi"], ["--method", "seq", "--index", "packed"]):
        ran = tests.run("drc-pack", source, "-o", stream, "--text", text, "--map", moves, "--force", "--keep-degenerate", *words)
        is_seq = tests.drc(["info"], stream.read_bytes()).stdout.split(b"\n")[0].endswith(b" seq")
        tests.tell(ran.returncode == 0 and is_seq and len(map_rows(moves)) == 80, f"kept {words}: {ran.stderr.decode()}")
        tests.tell(("coded sequentially, which takes more bytes, since 40 faces have two corners" in ran.stderr.decode()) == ("seq" not in words), f"kept {words}: a line says so: {ran.stderr.decode()}")
        ran = tests.drc(["verify"], moves.read_bytes() + b"ply %d\n" % text.stat().st_size + text.read_bytes() + stream.read_bytes())
        tests.tell(ran.stdout == b"same 80\n", f"kept {words}: verify: {ran.stdout} {ran.stderr}")
    ran = tests.run("drc-pack", tests.file("whole.obj", unwrapped().obj()), "-o", stream, "--force", "--keep-degenerate")
    tests.tell(ran.returncode == 0 and not ran.stderr and tests.drc(["info"], stream.read_bytes()).stdout.split(b"\n")[0].endswith(b" eb"), "a mesh without such faces stays Edgebreaker's")
    flat = tests.file("flat.obj", b"v 0 0 0\nv 1e-9 0 0\nv 1 1 0\nf 1 2 3\n")
    one_line(tests, "no face is left", tests.run("drc-pack", flat, "-o", stream, "--force"), 2, "flat.obj", "refused Degenerate 0", "each of 1 face", "--keep-degenerate")
    one_line(tests, "both words", tests.run("drc-pack", flat, "-o", stream, "--force", "--keep-degenerate", "--drop-degenerate"), 1, "not allowed with")
    folder = tests.folder / "many"
    folder.mkdir()
    shutil.copy(source, folder / "sliver.obj")
    (folder / "scan.ply").write_bytes(scan_like(9).ply())
    for words in ([], ["--keep-degenerate"]):
        out = tests.folder / f"streams{len(words)}"
        ran = tests.run("drc-many", "pack", folder, "-o", out, "--maps", "--one-by-one", *words)
        tests.tell(ran.returncode == 0, f"drc-many pack {words}: {ran.stdout.decode()} {ran.stderr.decode()}")
        ran = tests.run("drc-many", "verify", folder, "-o", out, "--one-by-one", *words)
        tests.tell(ran.returncode == 0, f"drc-many verify {words} knows which faces were left out: {ran.stdout.decode()} {ran.stderr.decode()}")


run(errors, collapse)
