#!/usr/bin/python3
"""Shows that convert/drc-pack codes normals octahedrally by profile 3, as Google's draco does, and says what that saves.

usage: tests/convert/test_octahedral.py PROGRAM

PROGRAM is the built `drc`; where it doesn't write profile 3, a line says so. The last line printed is 'N passed, M failed'; the exit status is 0 where M is 0.
"""
import random
import re
import shutil
import subprocess

import mesh_cases  # noqa: F401  (which says where numpy is missing)
import numpy as np
from drcfiles import plytext
from drcfiles.grids import octahedral, unit_vectors
from drcfiles.program import Drc
from drcfiles.reading import ply as ply_reader
from mesh_cases import Made, corner_rows, made, one_line, run, scan_like, scans, turned, unwrapped


def with_normals(mesh, seed=1):
    """A mesh with normals of any lengths and directions, some on the axes and some of no length."""
    draw = random.Random(seed)
    axes = [(1, 0, 0), (0, -1, 0), (0, 0, 1), (0, 0, -1), (-1, 0, 0), (1, 1, 0), (-1, 0, 1), (0, 0, 0), (-2, -2, -2)]
    normals = [draw.choice(axes) if draw.random() < 0.3 else [draw.gauss(0, 1) * 10 ** draw.uniform(-3, 3) for _ in range(3)] for _ in mesh.positions]
    return Made(f"{mesh.name} with normals", mesh.positions, mesh.faces, normals, mesh.textures)


def of_stream(tests, stream):
    ran = tests.drc(["dec", "--profile", "3"], stream.read_bytes())
    return plytext.read_text(ran.stdout) if ran.returncode == 0 else None


def rows_of(geometry):
    """The triangles by all integers of their corners, without those whose places are one."""
    at = geometry.values[0]
    proper = [face for face in geometry.faces.tolist() if len({at[k].tobytes() for k in face}) == 3]
    order = sorted(range(len(geometry.heads)), key=lambda k: geometry.heads[k].usage)
    return turned(corner_rows([geometry.values[k].astype(np.int32) for k in order], proper))


def integers(tests):
    """The integers of normals are those of draco_encoder, of each number of bits, and each stream comes back by draco_decoder to the same floats."""
    if not shutil.which("draco_encoder"):
        tests.skip("the tool's octahedral integers", "draco")
        return
    for mesh in [unwrapped(), with_normals(unwrapped()), with_normals(scan_like(12), 2)]:
        source = tests.file("normals.obj", mesh.obj())
        for bits in (2, 3, 8, 11, 17):
            title = f"{mesh.name} --qn {bits}"
            theirs = tests.folder / "theirs.drc"
            subprocess.run(["draco_encoder", "-i", str(source), "-o", str(theirs), "-qp", "14", "-qt", "12", "-qn", str(bits), "-cl", "7"], stdout=subprocess.DEVNULL, stderr=subprocess.DEVNULL, check=True)
            for words in ([], ["--method", "seq"], ["--method", "valence", "--predict", "para", "--walk", "degree"], ["--predict", "none"]):
                ours = tests.packed(title, source, "--profile", "3", "--qn", bits, *words)
                a, b = ours and of_stream(tests, ours), of_stream(tests, theirs)
                tests.tell(a and b and rows_of(a) == rows_of(b) and [it.octa for it in a.heads if it.usage == 1] == [bits], f"{title} {words}: the tool's integers")


def floats(tests):
    """What is unpacked are the unit vectors of the integers, and the angle that is printed is no less than that of any normal."""
    for mesh in [it for it in made() if it.normals is not None] + [with_normals(scan_like(9), 3)]:
        source = tests.file("normals.ply", mesh.ply())
        for words, bits in (([], 8), (["--qn", "12"], 12)):
            out = tests.folder / "floats.drc"
            ran = tests.run("drc-pack", source, "-o", out, "--force", "--profile", "3", *words, "--method", "seq", "--keep-degenerate")
            said = re.search(r"normal: (\d+) octahedral bits, greatest angle (\S+) degrees", ran.stdout.decode())
            tests.tell(ran.returncode == 0 and said and int(said[1]) == bits, f"{mesh.name} {words}: {ran.stdout} {ran.stderr}")
            back = tests.unpacked(mesh.name, out)
            found = {it.usage: it.values for it in ply_reader.read(back).attributes}[1]
            tests.tell(found.tobytes() == unit_vectors(octahedral(mesh.normals, bits), bits).tobytes(), f"{mesh.name} {words}: the unit vectors")
            given = mesh.normals.astype(np.float64)
            apart = np.degrees(np.arctan2(np.linalg.norm(np.cross(given, found), axis=1), (given * found).sum(axis=1)))[np.abs(given).sum(axis=1) > 0]
            tests.tell(said and apart.max() <= float(said[2]), f"{mesh.name} {words}: {apart.max()} degrees")


def savings(tests):
    """In profile 2 a line says what the option saves, where normals are a third of the bytes, and it saves that."""
    source = tests.file("normals.obj", with_normals(scan_like(30), 4).obj())
    out = tests.folder / "saved.drc"
    ran = tests.run("drc-pack", source, "-o", out, "--force")
    said = re.search(rb"normals take ([\d,]+) of ([\d,]+) bytes; --profile 3 --qn 11 saves ([\d,]+) of these", ran.stderr)
    tests.tell(ran.returncode == 0 and said, f"a line says what profile 3 saves: {ran.stderr}")
    plain = out.stat().st_size
    other = tests.packed("as it says", source, "--profile", "3", "--qn", "11")
    tests.tell(said and other and plain - other.stat().st_size == int(said[3].replace(b",", b"")), "and that is what it saves")
    tests.tell(tests.drc(["dec"], out.read_bytes()).returncode == 0, "without the option the stream is in profile 2")
    for words, data in ((["--skip", "normal"], None), (["-q"], None), (["--profile", "3"], None), ([], scan_like(30).obj())):
        ran = tests.run("drc-pack", tests.file("other.obj", data) if data else source, "-o", out, "--force", *words)
        tests.tell(ran.returncode == 0 and b"saves" not in ran.stderr, f"no line {words}: {ran.stderr}")
    one_line(tests, "one bit", tests.run("drc-pack", source, "-o", out, "--force", "--profile", "3", "--qn", "1"), 1, "2 to 30 bits")
    for do in (["pack", "--maps"], ["verify"]):
        folder = tests.folder / "octahedral"
        folder.mkdir(exist_ok=True)
        shutil.copy(source, folder / "normals.obj")
        ran = tests.run("drc-many", do[0], folder, "-o", tests.folder / "octahedral-streams", "--one-by-one", "--profile", "3", *do[1:])
        tests.tell(ran.returncode == 0, f"drc-many {do}: {ran.stdout.decode()} {ran.stderr.decode()}")


def authored(tests):
    """Models take fewer bytes by profile 3, at the bits that have the same error."""
    for name, source in scans(tests):
        if name != "bunny":
            sizes = [tests.packed(name, source, *words).stat().st_size for words in (["--qn", "7"], ["--profile", "3"])]
            tests.tell(sizes[1] < sizes[0], f"{name}: {sizes}")


def parts(tests):
    if not Drc(tests.program).writes_profile_three():
        print("octahedral normals: skipped, this program doesn't write profile 3")
        return
    for part in (integers, floats, savings, authored):
        part(tests)


run(parts)
