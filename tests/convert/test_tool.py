#!/usr/bin/python3
"""Shows what convert/drc-pack and convert/drc-unpack do beside Google's draco: its integers on its grids, its floats bit for bit, and which
of its files are read.

usage: tests/convert/test_tool.py PROGRAM

PROGRAM is the built `drc`. The last line printed is 'N passed, M failed'; the exit status is 0 where M is 0.
"""
import random
import shutil
import subprocess

import mesh_cases  # noqa: F401  (which says where numpy is missing)
import numpy as np
from drcfiles import plytext
from drcfiles.reading import ply as ply_reader
from shapes import coated, coated_clouds
from mesh_cases import METHODS, Made, coloured, corner_rows, made, run, scan_like, scans, turned, unwrapped


def integers_of(text):
    """The triangles of a text of `drc dec` by the integers of its positions and texture coordinates, and the grids of these."""
    geometry = plytext.read_text(text)
    kept = [k for k, head in enumerate(geometry.heads) if head.usage in (0, 3)]
    tables = [geometry.values[k].astype(np.int32) for k in kept]
    grids = [(geometry.heads[k].grid.bits, geometry.heads[k].grid.range.tobytes(), geometry.heads[k].grid.minimum.tobytes()) for k in kept]
    at = geometry.values[0]
    proper = [face for face in geometry.faces.tolist() if len({at[k].tobytes() for k in face}) == 3]
    return turned(corner_rows(tables, proper)), grids


def the_tools_integers(tests, name, source, levels, bits):
    """What draco_encoder -qp N codes and what drc-pack --qp N codes are the same integers on the same grid."""
    for level in levels:
        for n in bits:
            title = f"{name} -qp {n} -cl {level}"
            theirs = tests.folder / "theirs.drc"
            subprocess.run(["draco_encoder", "-i", str(source), "-o", str(theirs), "-qp", str(n), "-qt", str(n), "--skip", "NORMAL", "-cl", str(level)],
                           stdout=subprocess.DEVNULL, stderr=subprocess.DEVNULL, check=True)
            there = tests.drc(["dec"], theirs.read_bytes())
            tests.tell(there.returncode == 0, f"{title}: drc dec of the tool's file: {there.stderr.decode()}")
            ours = tests.packed(title, source, "--qp", n, "--qt", n, "--skip", "normal", "--skip", "colour")
            if ours and there.returncode == 0:
                tests.tell(integers_of(there.stdout) == integers_of(tests.drc(["dec"], ours.read_bytes()).stdout), f"{title}: the same integers")


def the_tools_floats(tests, name, source, words):
    """draco_decoder reads a packed file to the floats that drc-unpack gives, bit for bit, triangle by triangle."""
    title = f"{name} {' '.join(words)}: the tool's floats"
    stream = tests.packed(title, source, *words)
    unpacked_as_there(tests, title, stream)


def unpacked_as_there(tests, title, stream):
    """drc-unpack gives the floats of draco_decoder of a stream, if it is there, bit for bit, triangle by triangle."""
    back = stream and tests.unpacked(title, stream)
    if not back:
        return
    there = tests.folder / "there.ply"
    there.unlink(missing_ok=True)
    ran = subprocess.run(["draco_decoder", "-i", str(stream), "-o", str(there)], stdout=subprocess.PIPE, stderr=subprocess.STDOUT, check=False)
    tests.tell(ran.returncode == 0, f"{title}: draco_decoder refuses it")
    if ran.returncode:
        return
    tables, faces = file_of_the_tool(there.read_bytes())
    mine = ply_reader.read(back)
    if faces is None:
        tests.tell([it.tobytes() for it in tables] == [it.tobytes() for it in order_of_the_tool(mine)] and mine.faces is None, title)
    else:
        tests.tell(turned(corner_rows(tables, faces)) == turned(corner_rows(order_of_the_tool(mine), mine.faces)), title)


def file_of_the_tool(data):
    """A PLY file of draco_decoder: positions, normals, colours and texture coordinates (which it has by faces) for each corner, and None or faces."""
    order, elements, _, place = ply_reader.header("tool", data)
    source = ply_reader.Binary("tool", data, place, order)
    tables = {it.name: source.table(it) for it in elements}
    at = tables["vertex"]
    groups = [np.stack([at[name] for name in names.split()], axis=1) for names in ("x y z", "nx ny nz", "red green blue") if names.split()[0] in at]
    if "face" not in tables:
        return groups, None
    faces = tables["face"]["vertex_indices"][1].reshape(-1, 3)
    if "texcoord" in tables["face"]:
        corners = [group[faces.ravel()] for group in groups]
        corners.append(tables["face"]["texcoord"][1].reshape(-1, 2))
        return corners, np.arange(faces.size).reshape(-1, 3)
    return groups, faces


def order_of_the_tool(mesh):
    """The tables of an unpacked PLY in the tool's order: texture coordinates last."""
    by_usage = {it.usage: it.values for it in mesh.attributes}
    return [by_usage[usage] for usage in (0, 1, 2, 3) if usage in by_usage]


def the_tool(tests):
    if not (shutil.which("draco_encoder") and shutil.which("draco_decoder")):
        tests.skip("Google's draco", "draco")
        return
    for mesh in made():
        the_tools_integers(tests, mesh.name, tests.file("m.obj", mesh.obj()), (6,), (8, 11, 16))
        for words in METHODS:
            if mesh.name != "awkward" or "seq" in words:
                if "packed" not in words:  # known: the tool refuses some packed indices
                    the_tools_floats(tests, mesh.name, tests.file("m.ply", mesh.ply()), words)
    # texture coordinates that no face uses widen the grid there and here
    more = unwrapped().obj() + b"vt 3.75 -2.5\nv 7 8 9\n"
    the_tools_integers(tests, "values of no face", tests.file("m.obj", more), (6,), (11,))
    for name, source in scans(tests):
        the_tools_integers(tests, name, source, (6,), (11, 14) if name != "bunny" else (11,))
        for words in METHODS[2::2]:
            the_tools_floats(tests, name, source, words)
    draw = random.Random(8)
    head = "ply\nformat ascii 1.0\nelement vertex 500\nproperty float x\nproperty float y\nproperty float z\n" + "".join(f"property uchar {it}\n" for it in ("red", "green", "blue"))
    cloud = "".join(f"{draw.gauss(5, 1):.6f} {draw.gauss(-2, 9):.6f} {draw.random():.6f} {draw.randrange(256)} 0 {draw.randrange(256)}\n" for _ in range(500))
    for words in ([], ["--predict", "none", "--plain-values"]):
        the_tools_floats(tests, "cloud", tests.file("cloud.ply", (head + "end_header\n" + cloud).encode()), words)


def normals_of_the_tool(tests):
    """The tool's files with normals and texture coordinates, smooth and with seams, are unpacked to the floats of draco_decoder, bit for bit."""
    if not (shutil.which("draco_encoder") and shutil.which("draco_decoder")):
        tests.skip("the tool's normals", "draco")
        return
    names = ("grid", "torus", "holes", "seams", "soup 3", "book 3")
    for shape in [it for it in coated() if it.name.split(" with ")[0] in names]:
        for level, bits in ((0, 8), (5, 2), (7, 10), (10, 30)):
            theirs = tests.folder / "theirs.drc"
            subprocess.run(["draco_encoder", "-i", str(tests.file("m.obj", shape.obj())), "-o", str(theirs), "-cl", str(level), "-qn", str(bits)],
                           stdout=subprocess.DEVNULL, stderr=subprocess.DEVNULL, check=True)
            unpacked_as_there(tests, f"the tool's {shape.name} -cl {level} -qn {bits}", theirs)
    for shape in coated_clouds():
        for bits in (2, 8, 17, 30):
            theirs = tests.folder / "theirs.drc"
            source = tests.file("m.ply", shape.ply())
            subprocess.run(["draco_encoder", "-point_cloud", "-i", str(source), "-o", str(theirs), "-cl", "0", "-qn", str(bits)],
                           stdout=subprocess.DEVNULL, stderr=subprocess.DEVNULL, check=True)
            unpacked_as_there(tests, f"the tool's {shape.name} -qn {bits}", theirs)


def files_of_the_tool(tests):
    """Which files of the tool are read, and by which kind the others are refused, as the table of docs/USAGE.md has it: without the option, and by
    `--profile 3`, which reads octahedral normals and predictions by positions too."""
    if not shutil.which("draco_encoder"):
        tests.skip("which files of the tool are read", "draco")
        return
    whole = unwrapped().obj().decode()
    no_textures = Made("", unwrapped().positions, unwrapped().faces, unwrapped().normals).obj()
    lines = scan_like(6).obj().decode().splitlines()
    parts = "\n".join(f"usemtl m{k // 3 % 2}\n{line}" if line.startswith("f") else line for k, line in enumerate(lines)) + "\n"
    twice = b"v 0 0 0\nv 1 0 0\nv 0 1 0\nv 1 1 1\nf 1 2 3\nf 2 4 3\nf 1 2 3\nf 4 2 3\n"
    quads = b"v 0 0 0\nv 1 0 0\nv 1 1 0\nv 0 1 0\nv 2 0 0\nv 2 1 0\nf 1 2 3 4\nf 2 5 6 3\n"
    low, high = (0, 1, 6), (7, 8, 9, 10)
    table = [
        ("m.ply", coloured().ply(), [], low + high, None), ("m.obj", parts.encode(), [], low + high, None), ("m.stl", unwrapped().stl(), [], (7,), "Octahedral"),
        ("m.obj", no_textures, [], low + high, "Octahedral"), ("m.obj", whole.encode(), ["--skip", "NORMAL"], low, None),
        ("m.obj", whole.encode(), ["--skip", "NORMAL"], high, "Prediction"), ("m.obj", whole.encode(), ["--skip", "NORMAL", "--skip", "TEX_COORD"], high, None),
        ("m.obj", scan_like(6).obj(), ["-qp", "0"], (0, 7), "Generic"), ("m.obj", whole.encode(), ["--skip", "NORMAL", "-qt", "0"], (6, 7), "Generic"),
        ("m.ply", coloured().ply(), ["-point_cloud"], (0,), None), ("m.ply", coloured().ply(), ["-point_cloud"], (1, 7, 10), "KdCloud"),
        ("m.obj", parts.encode(), ["--metadata"], (0, 7), "Metadata"), ("m.obj", quads, ["-preserve_polygons"], (7,), "Metadata"),
        ("m.obj", twice, [], low + high, 4), ("m.obj", twice + b"f 1 1 2\n", [], (0,), 5), ("m.obj", twice + b"f 1 1 2\n", [], (1, 6, 7, 10), 4),
    ]
    for name, data, words, levels, wanted in table:
        for level in levels:
            theirs = tests.folder / "theirs.drc"
            subprocess.run(["draco_encoder", "-i", str(tests.file(name, data)), "-o", str(theirs), "-cl", str(level), *words],
                           stdout=subprocess.DEVNULL, stderr=subprocess.DEVNULL, check=True)
            ran = tests.drc(["dec"], theirs.read_bytes())
            if isinstance(wanted, str):
                holds = ran.returncode == 2 and ran.stderr.decode().startswith(f"refused {wanted} ")
            else:
                holds = ran.returncode == 0 and (wanted is None or f"element face {wanted}\n".encode() in ran.stdout)
            tests.tell(holds, f"the tool's {name} {' '.join(words)} -cl {level}: {wanted}: {ran.stderr.decode().strip()}")
            by_three = tests.drc(["dec", "--profile", "3"], theirs.read_bytes())
            is_read = by_three.returncode == 0 and (ran.returncode != 0 or by_three.stdout == ran.stdout)
            holds = is_read if wanted in ("Octahedral", "Prediction") or ran.returncode == 0 else by_three.stderr == ran.stderr
            tests.tell(holds, f"the tool's {name} {' '.join(words)} -cl {level}: by profile 3: {by_three.stderr.decode().strip()}")


run(files_of_the_tool, normals_of_the_tool, the_tool)
