#!/usr/bin/python3
"""Shows which forms of OFF, PLY, XYZ and PCD convert/drc-pack reads, to which points, colours and faces; that faces of many corners become
triangles of their area; and that a line says what a stream has no room for.

usage: tests/convert/test_formats.py PROGRAM

PROGRAM is the built `drc`. The last line printed is 'N passed, M failed'; the exit status is 0 where M is 0.
"""
import math
import resource
import shutil
import struct

import mesh_cases  # noqa: F401  (which says where numpy is missing)
import numpy as np
from drcfiles import mesh as mesh_file
from drcfiles import plytext
from limit_numbers import LIMITS
from mesh_cases import MODELS, comes_back, digits, one_line, run, scan_like, unwrapped

CORNERS = [(0, 0, 0), (1, 0, 0), (1, 1, 0), (0, 1, 0)]
POINT_LIMIT = LIMITS["MAX_POINTS"]


def decoded(tests, title, name, data, *words):
    """What `drc dec` gives of a packed file, and what drc-pack said and printed."""
    out = tests.folder / "formats.drc"
    out.unlink(missing_ok=True)
    ran = tests.run("drc-pack", tests.file(name, data), "-o", out, "--method", "seq", *words)
    tests.tell(ran.returncode == 0, f"{title}: {ran.stderr.decode()}")
    if ran.returncode:
        return None, "", ""
    return plytext.read_text(tests.drc(["dec"], out.read_bytes()).stdout), ran.stderr.decode(), ran.stdout.decode()


def cloud(tests, title, *words):
    return decoded(tests, title, *words)


def at(geometry, k=0):
    """The values of an attribute, to a hundredth."""
    return [tuple(round(float(it), 2) for it in row) for row in geometry.numbers(k)]


def ints(geometry, k):
    return [tuple(map(int, row)) for row in geometry.values[k]]


def off(tests):
    mesh = scan_like(8)
    rows = "".join(f"{digits(x)} {digits(y)} {digits(z)}\n" for x, y, z in mesh.positions)
    faces = "".join("3 %d %d %d\n" % tuple(face) for face in mesh.faces)
    counts = f"{len(mesh.positions)} {len(mesh.faces)}"
    for title, text in (("plain", f"OFF\n{counts} 0\n{rows}{faces}"), ("counts behind OFF", f"OFF {counts} 0\n\n{rows}\n{faces}"),
                        ("no keyword", f"{counts} 0\n{rows}{faces}"), ("no edges", f"OFF\n{counts}\n{rows}{faces}"),
                        ("comments", f"# made\nOFF # here\n# {counts}\n{counts} 0 # counts\n{rows}# faces\n{faces}"),
                        ("CR", f"OFF\r{counts} 0\r{rows}{faces}".replace("\n", "\r")), ("CR LF", f"OFF\n{counts} 0\n{rows}{faces}".replace("\n", "\r\n"))):
        comes_back(tests, mesh, f"{title}.off", text.encode(), ["--keep-degenerate"])
    square = "".join("%d %d %d{}\n" % row for row in CORNERS)
    for title, keyword, more, wanted in (
        ("bytes", "COFF", (" 255 0 0 255", " 0 255 0 9", " 0 0 255 8", " 1 2 3 7"), [(255, 0, 0, 255), (0, 255, 0, 9), (0, 0, 255, 8), (1, 2, 3, 7)]),
        ("shares", "COFF", (" 1 0 0 1", " 0 1 0 1", " 0 0 1 1", " 0.2 0.4 0.6 0"), [(255, 0, 0, 255), (0, 255, 0, 255), (0, 0, 255, 255), (51, 102, 153, 0)]),
        ("three", "COFF", (" 255 0 0", " 0 255 0", " 0 0 255", " 1 2 3"), [(255, 0, 0), (0, 255, 0), (0, 0, 255), (1, 2, 3)]),
    ):
        made, said, _ = decoded(tests, f"COFF {title}", "c.off", f"{keyword}\n4 1 0\n{square.format(*more)}4 0 1 2 3\n".encode())
        tests.tell(made and ints(made, 1) == wanted and made.heads[1].usage == 2 and len(made.faces) == 2 and "split into 2 triangles" in said, f"COFF {title}")
    made, _, _ = decoded(tests, "NOFF", "n.off", f"NOFF\n4 2 0\n{square.format(*[' 0 0 1'] * 4)}3 0 1 2\n3 0 2 3\n".encode())
    tests.tell(made and made.heads[1].usage == 1 and at(made, 1) == [(0, 0, 1)] * 4 and at(made) == CORNERS, "NOFF")
    made, said, _ = decoded(tests, "colours of faces", "f.off", f"OFF\n4 2 0\n{square.format('', '', '', '')}3 0 1 2 255 0 0\n3 0 2 3 0.5 0.5 0.5 1\n".encode())
    tests.tell(made and made.faces.tolist() == [[0, 1, 2], [0, 2, 3]] and "colours of 2 faces left out" in said, "colours of faces are said")
    plain = square.format("", "", "", "")
    for title, text, parts in (
        ("no numbers", "OFF\nfour 1 0\n", ["line 2", "numbers of points and faces"]), ("word", f"OFF\n4 1 0\n{plain.replace('1 1 0', '1 x 0')}3 0 1 2\n", ["line 5", "1 x 0"]),
        ("short", "OFF\n4 1 0\n0 0 0\n1 0\n1 1 0\n0 1 0\n3 0 1 2\n", ["line 4", "2 numbers, 3 are due"]), ("face", f"OFF\n4 1 0\n{plain}4 0 1 2\n", ["line 7", "4 corners", "names 3"]),
        ("range", f"OFF\n4 1 0\n{plain}3 0 1 4\n", ["face 0", "the index 4"]), ("cut", f"OFF\n4 2 0\n{plain}3 0 1 2\n", ["is cut", "1 of 2 faces"]),
        ("points", "OFF\n4 2 0\n0 0 0\n", ["is cut", "1 of 4 points"]), ("four", "4OFF\n1 0 0\n0 0 0 0\n", ["coordinates"]), ("binary", "OFF BINARY\n\0\0\0\4", ["binary"]), ("nothing", "", ["empty"]),
    ):
        ran = tests.run("drc-pack", tests.file(f"{title}.off", text.encode()), "-o", tests.folder / "x.drc")
        one_line(tests, f"OFF {title}", ran, 2, f"{title}.off", *parts)


def ends_of_lines(tests):
    """PLY whose lines end in CR, as text and with binary rows behind such a header."""
    mesh = unwrapped()
    wanted = [(it.usage, it.values.tobytes()) for it in mesh_cases.ply_reader.read(tests.file("lf.ply", mesh.ply())).attributes]
    head, mark, body = mesh.ply().partition(b"end_header\n")
    for title, data in (("CR", head.replace(b"\n", b"\r") + b"end_header\r" + body), ("CR LF", head.replace(b"\n", b"\r\n") + b"end_header\r\n" + body)):
        found = mesh_cases.ply_reader.read(tests.file("cr.ply", data))
        tests.tell([(it.usage, it.values.tobytes()) for it in found.attributes] == wanted and (found.faces == mesh.faces).all(), f"binary rows behind {title}")
        comes_back(tests, mesh, "cr.ply", data, [], ("positions", "normals", "textures"))
        comes_back(tests, mesh, "crt.ply", mesh.ply(is_text=True).replace(b"\n", b"\r" if title == "CR" else b"\r\n"), [], ("positions", "normals", "textures"))
    text = b"ply\rformat ascii 1.0\relement vertex 2\rproperty float x\rproperty float y\rproperty float z\rend_header\r0 0 0\r1 x 0\r"
    one_line(tests, "a line of CR", tests.run("drc-pack", tests.file("word.ply", text), "-o", tests.folder / "x.drc"), 2, "word.ply line 9", "x is no number")


def clouds(tests):
    rows = [(0, 0, 0), (1, 0, 0.5), (0, 2, 1), (0.25, 1, 1)]
    lines = lambda more: "".join(f"{x} {y} {z}{it}\n" for (x, y, z), it in zip(rows, more))
    colours, normals = [(255, 0, 0), (0, 255, 0), (0, 0, 9), (4, 5, 6)], [(0, 0, 1), (0, 1, 0), (0.6, 0.8, 0), (-1, 0, 0)]
    three = lambda table: [" " + " ".join(map(str, it)) for it in table]
    for name, text, heads in (
        ("p.xyz", lines([""] * 4), {}), ("h.xyz", "# x y z\n//Y\nX Y Z\n\n" + lines([""] * 4), {}), ("c.xyz", lines(three(colours)), {2: colours}),
        ("n.xyz", lines(three(normals)), {1: normals}), ("commas.xyz", lines([""] * 4).replace(" ", ", "), {}), ("semi.asc", lines([""] * 4).replace(" ", ";"), {}),
        ("i.pts", "4\n" + lines([f" {-7 * k} {r} {g} {b}" for k, (r, g, b) in enumerate(colours)]), {2: colours, 4: [(0,), (-7,), (-14,), (-21,)]}),
        ("cr.xyz", lines(three(colours)).replace("\n", "\r"), {2: colours}), ("four.xyz", lines([" 0.5", " 1.5", " 2.5", " 3.5"]), {4: [(0.5,), (1.5,), (2.5,), (3.5,)]}),
    ):
        made, said, printed = decoded(tests, name, name, text.encode())
        holds = made and made.faces is None and at(made) == [tuple(float(it) for it in row) for row in rows]
        for usage, wanted in heads.items():
            k = made.first(usage) if made else None
            holds = holds and k is not None and np.abs(np.array(made.numbers(k), float) - np.array(wanted, float)).max() <= (0 if usage == 2 else 0.011)
        tests.tell(holds and "a cloud" in printed and len(made.heads) == 1 + len(heads), f"{name}: {said} {printed}")
    for title, text, parts in (("word.xyz", "0 0 0\n1 O 0\n", ["line 2", "O is no number"]), ("width.xyz", "0 0 0\n1 0 0 0\n", ["line 2", "4 numbers, 3 are due"]),
                               ("two.xyz", "0 0\n", ["line 1", "2 numbers"]), ("none.xyz", "# nothing\n", ["no points"]), ("comma.xyz", "0,5 1,5 2,5\n", ["comma"])):
        one_line(tests, title, tests.run("drc-pack", tests.file(title, text.encode()), "-o", tests.folder / "x.drc"), 2, title, *parts)
    head = "# .PCD v0.7\nVERSION 0.7\nFIELDS x y z {}\nSIZE 4 4 4 {}\nTYPE F F F {}\nCOUNT 1 1 1 {}\nWIDTH 4\nHEIGHT 1\nVIEWPOINT 0 0 0 1 0 0 0\nPOINTS 4\nDATA {}\n"
    as_number = lambda r, g, b: (r << 16) + (g << 8) + b
    as_float = lambda rgb: "%.9g" % struct.unpack("<f", struct.pack("<I", as_number(*rgb)))[0]
    small = [(255, 0, 0), (0, 255, 0), (0, 0, 9), (4, 5, 6)]
    for name, data, heads in (
        ("whole.pcd", head.format("rgb label", "4 2", "U U", "1 1", "ascii") + lines([f" {as_number(*it)} {1000 + k}" for k, it in enumerate(small)]), {2: small, 4: [(1000,), (1001,), (1002,), (1003,)]}),
        ("float.pcd", head.format("rgb", "4", "F", "1", "ascii") + lines([f" {as_float(it)}" for it in small]), {2: small}),
        ("normals.pcd", head.format("normal_x normal_y normal_z", "4 4 4", "F F F", "1 1 1", "ascii") + lines(three(normals)), {1: normals}),
        ("binary.pcd", head.format("rgba _ i", "4 1 2", "U U I", "1 3 1", "binary").encode() + b"".join(struct.pack("<3fI3xh", *row, 7 << 24 | as_number(*it), -k) for k, (row, it) in enumerate(zip(rows, small))),
         {2: [(*it, 7) for it in small], 4: [(0,), (-1,), (-2,), (-3,)]}),
    ):
        made, said, printed = decoded(tests, name, name, data if isinstance(data, bytes) else data.encode())
        holds = made and made.faces is None and at(made) == [tuple(float(it) for it in row) for row in rows] and len(made.heads) == 1 + len(heads)
        for usage, wanted in heads.items():
            k = made.first(usage) if made else None
            holds = holds and k is not None and np.abs(np.array(made.numbers(k), float) - np.array(wanted, float)).max() <= (0.001 if usage == 1 else 0)
        tests.tell(holds, f"{name}: {said} {printed}")
    plain = head.replace(" {}\n", "\n", 4)
    made, said, _ = decoded(tests, "NaN", "nan.pcd", plain.format("ascii").encode() + b"0 0 0\nnan nan nan\n1 0 0\n0 1 0\n")
    tests.tell(made and at(made) == [(0, 0, 0), (1, 0, 0), (0, 1, 0)] and "1 point without a place (NaN) left out" in said, f"points without a place: {said}")
    for title, text, parts in (("cut.pcd", plain.format("ascii") + "0 0 0\n", ["is cut", "1 of 4 points"]), ("packed.pcd", plain.format("binary_compressed"), ["binary_compressed"]),
                               ("short.pcd", plain.format("binary") + "0", ["is cut", "48 bytes"]), ("head.pcd", "FIELDS x y z\nDATA ascii\n", ["header"]), ("no.pcd", "x", ["no PCD header"]),
                               ("places.pcd", plain.replace("x y z", "a b c").format("ascii") + lines([""] * 4), ["no fields x, y, z"])):
        one_line(tests, title, tests.run("drc-pack", tests.file(title, text.encode()), "-o", tests.folder / "x.drc"), 2, title, *parts)


def area(geometry):
    corners = np.asarray(geometry.numbers(0), np.float64)[geometry.faces]
    return np.cross(corners[:, 1] - corners[:, 0], corners[:, 2] - corners[:, 0])


def star(points, inner):
    return [((1 if k % 2 == 0 else inner) * math.cos(math.pi * k / points), (1 if k % 2 == 0 else inner) * math.sin(math.pi * k / points)) for k in range(2 * points)]


def comb(teeth):
    made = [(0, 0), (2 * teeth - 1, 0)]
    for k in reversed(range(teeth)):
        made += [(2 * k + 1, 3), (2 * k, 3)] + ([(2 * k, 1), (2 * k - 1, 1)] if k else [])
    return made


def polygons(tests):
    """Each polygon, begun at each of its corners, in three planes and both ways round: as many triangles as its corners less two, all
    turned one way, with its area, which is worked out here by the trapezoids under its sides."""
    shapes = {"L": [(0, 0), (3, 0), (3, 1), (1, 1), (1, 3), (0, 3)], "arrow": [(0, 0), (2, 1), (0, 2), (0.5, 1)], "star": star(5, 0.3), "comb": comb(4),
              "square": [(0, 0), (1, 0), (1, 1), (0, 1)], "level": [(0, 0), (1, 0), (2, 0), (2, 1), (2, 2), (1, 1), (0, 2)]}
    planes = (lambda x, y: (x, y, 0), lambda x, y: (0, x, y), lambda x, y: (y, 0, x), lambda x, y: (x, y, x + y))
    for name, shape in shapes.items():
        twice = sum(a[0] * b[1] - b[0] * a[1] for a, b in zip(shape, shape[1:] + shape[:1]))
        lines, faces, first = [], [], 1
        for plane in planes:
            for way in (1, -1):
                ring = shape[::way]
                for k in range(len(ring)):
                    lines += ["v %.9g %.9g %.9g" % plane(*it) for it in ring[k:] + ring[:k]]
                    faces.append("f " + " ".join(map(str, range(first, first + len(ring)))))
                    first += len(ring)
        made, said, _ = decoded(tests, name, "polygons.obj", "\n".join(lines + faces).encode() + b"\n", "--qp", "24", "--keep-degenerate")
        if not made:
            continue
        each = len(shape) - 2
        areas = area(made).reshape(len(faces), each, 3)
        whole = areas.sum(axis=1)
        normal = whole / np.linalg.norm(whole, axis=1, keepdims=True)
        sizes = np.linalg.norm(whole, axis=1) / np.repeat([1, 1, 1, math.sqrt(3)], 2 * len(shape))
        ways = (areas * normal[:, None, :]).sum(axis=2).min()
        tests.tell(len(made.faces) == each * len(faces) and np.abs(sizes - twice).max() < 1e-4 and ways > -1e-5, f"{name}: {said} {np.abs(sizes - twice).max()} {ways}")
        tests.tell(("concave" in said) == (name != "square") and "cross" not in said, f"{name}: what is said: {said}")
    bow = b"v 0 0 0\nv 1 1 0\nv 1 0 0\nv 0 1 0\nv 0.5 3 0\nf 1 2 3 4 5\n"
    _, said, _ = decoded(tests, "bow", "bow.obj", bow)
    tests.tell("1 face crosses itself" in said, f"a face that crosses itself is said: {said}")
    turns = [(math.cos(it), math.sin(it)) for it in np.linspace(0, 7 * math.pi, 1000)]  # a spiral of a thousand corners
    spiral = [((1 + k / 100) * x, (1 + k / 100) * y) for k, (x, y) in enumerate(turns)] + [((1.5 + k / 100) * x, (1.5 + k / 100) * y) for k, (x, y) in reversed(list(enumerate(turns)))]
    start = processor_time()
    made, said, _ = decoded(tests, "spiral", "spiral.obj", ("".join("v %.9g %.9g 0\n" % it for it in spiral) + "f " + " ".join(str(k + 1) for k in range(len(spiral))) + "\n").encode(), "--qp", "24")
    twice = abs(sum(a[0] * b[1] - b[0] * a[1] for a, b in zip(spiral, spiral[1:] + spiral[:1])))
    found = np.linalg.norm(area(made), axis=1).sum() if made else 0
    tests.tell(abs(found - twice) < 1e-4 * twice and processor_time() - start < 30, f"a spiral of 2,000 corners: {found} {twice} {said}")


def losses(tests):
    """A line says what a stream has no room for, and the list has each attribute that it has."""
    body = b"mtllib a.mtl\no one\ng a\nusemtl red\nv 0 0 0\nv 1 0 0\nv 0 1 0\nv 1 1 0\nvt 0 0 0.5\nf 1/1 2/1 3/1\ng b\nusemtl blue\ns 1\nf 2/1 4/1 3/1\nl 1 2\np 1\n"
    _, said, _ = decoded(tests, "an OBJ's losses", "loss.obj", body)
    tests.tell(all(it in said for it in ("2 materials", "2 groups", "1 object", "1 polyline", "1 list of points", "1 smoothing group", "third number of 1 texture coordinate")), f"an OBJ's losses: {said}")
    _, said, _ = decoded(tests, "nothing lost", "none.obj", b"v 0 0 0\nv 1 0 0\nv 0 1 0\ns off\nf 1 2 3\n")
    tests.tell(not said, f"nothing is said where nothing is lost: {said}")
    head = b"ply\nformat ascii 1.0\ncomment TextureFile skin.png\nelement vertex 3\nproperty float x\nproperty float y\nproperty float z\nproperty uchar class\nproperty float height\nelement face 1\nproperty list uchar int vertex_indices\nproperty uchar flag\nelement edge 1\nproperty int vertex1\nproperty int vertex2\nend_header\n"
    out = tests.folder / "names.txt"
    _, said, printed = decoded(tests, "a PLY's losses", "loss.ply", head + b"0 0 0 5 1\n1 0 0 6 2\n0 1 0 7 3\n3 0 1 2 9\n0 1\n", "--text", out)
    tests.tell(all(it in said for it in ("flag", "1 row of the element edge", "texture skin.png", "class is a1_0", "height is a2_0")), f"a PLY's losses: {said}")
    tests.tell("class (a1_0): uchar, kept as it is" in printed and "height (a2_0): 8 bits" in printed, f"the list has each attribute: {printed}")
    tests.tell(b"comment drc-pack column class as a1_0\n" in out.read_bytes() and b"comment drc-pack column height as a2_0\n" in out.read_bytes(), "the text has the names of columns")
    if not (shutil.which("assimp") and MODELS.exists()):
        tests.skip("losses of glTF", "assimp, or its models,")
        return
    for name, parts in (("glTF2/BoxTextured-glTF-Binary/BoxTextured.glb", ["1 material", "1 texture", "1 image", "drc-gltf pack keeps it"]), ("FBX/box.fbx", ["1 material"])):
        ran = tests.run("drc-pack", MODELS / name, "-o", tests.folder / "loss.drc", "--force")
        tests.tell(ran.returncode == 0 and all(it in ran.stderr.decode() for it in parts), f"{name}: {ran.stderr.decode()}")


def processor_time():
    """The seconds that the programs which were run and ended have taken."""
    used = resource.getrusage(resource.RUSAGE_CHILDREN)
    return used.ru_utime + used.ru_stime


def limits(tests):
    """More points than a stream has are refused by the header alone, before a body that isn't even there."""
    tests.tell((mesh_file.POINTS, mesh_file.FACES) == (POINT_LIMIT, LIMITS["MAX_FACES"]), "the limits are those of the codec")
    more = POINT_LIMIT + 1
    for name, data in (
        ("many.ply", b"ply\nformat binary_little_endian 1.0\nelement vertex %d\nproperty float x\nproperty float y\nproperty float z\nend_header\n" % more),
        ("many.off", b"OFF\n%d 1 0\n" % more),
        ("many.pcd", b"FIELDS x y z\nSIZE 4 4 4\nTYPE F F F\nPOINTS %d\nDATA binary\n" % more),
        ("many.xyz", b"0 0 0\n" * more),
        ("many.obj", b"v 0 0 0\n" * more),
    ):
        start = processor_time()
        ran = tests.run("drc-pack", tests.file(name, data), "-o", tests.folder / "x.drc")
        one_line(tests, name, ran, 2, name, f"refused PointLimit {more}", f"{more:,}", f"{POINT_LIMIT:,}")
        tests.tell(processor_time() - start < 8, f"{name}: at once: {processor_time() - start:.1f} s")
        (tests.folder / name).unlink()
    less = b"ply\nformat ascii 1.0\nelement vertex %d\nproperty float x\nproperty float y\nproperty float z\nend_header\n" % POINT_LIMIT
    one_line(tests, "as many as may be", tests.run("drc-pack", tests.file("most.ply", less), "-o", tests.folder / "x.drc"), 2, "most.ply is cut")


run(off, ends_of_lines, clouds, polygons, losses, limits)
