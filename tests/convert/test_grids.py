#!/usr/bin/python3
"""Shows the grids that a user asks for (--step and --grid), which method a mesh gets without a word, and clouds in order along a curve.

usage: tests/convert/test_grids.py PROGRAM

PROGRAM is the built `drc`. The last line printed is 'N passed, M failed'; the exit status is 0 where M is 0.
"""
import itertools
import random
import re
import shutil
import subprocess

import mesh_cases  # noqa: F401  (which says where numpy is missing)
import numpy as np
from drcfiles import curves, plytext
from mesh_cases import Made, coloured, lattice, map_rows, one_line, run, scan_like, unwrapped

F = np.float32
PLACES = ((0.0, 0.0, 0.0), (17.3, -204.75, 1e-3), (5400000.0, -3600000.25, 100.0))
STEPS = (0.001, 0.01, 0.0009765625, 0.25, 0.003)


def grid_of(tests, stream):
    """The grid of the positions of a stream, and its integers."""
    geometry = plytext.read_text(tests.drc(["dec", "--profile", "3"], stream.read_bytes()).stdout)
    return geometry.heads[0].grid, geometry.values[0], geometry


def obj(rows, faces):
    return ("".join(f"v {' '.join(row)}\n" for row in rows) + "".join("f %d %d %d\n" % tuple(it + 1 for it in face) for face in faces)).encode()


def fan(rows):
    return [(0, k, k + 1) for k in range(1, len(rows) - 1)]


def decimals(draw, place, wide, count, digits=4):
    """Rows of decimal numbers, many of them in the middle of two steps."""
    return [tuple(f"{place[k] + round(draw.random() * wide, digits):.{digits}f}" for k in range(3)) for _ in range(count)]


def steps(tests):
    """By --step each number becomes its nearest multiple of the step, the stream's step is the float nearest to it, and what is printed is so."""
    draw = random.Random(5)
    for place, step in itertools.product(PLACES, STEPS):
        rows = decimals(draw, place, 8, 60)
        title = f"--step {step} at {place[0]}"
        out = tests.folder / "step.drc"
        ran = tests.run("drc-pack", tests.file("step.obj", obj(rows, fan(rows))), "-o", out, "--force", "--method", "seq", "--keep-degenerate", "--step", step)
        found = re.search(r"position: (\d+) bits?, step (\S+)(?: \((\S+) as a float of 32 bits\))?, origin (\S+) (\S+) (\S+), greatest error (\S+)(?: in doubles, (\S+) in floats)?", ran.stdout.decode())
        tests.tell(ran.returncode == 0 and found, f"{title}: {ran.stdout} {ran.stderr}")
        if not found:
            continue
        grid, integers, geometry = grid_of(tests, out)
        read = np.array(rows, np.float64)[np.array(list(dict.fromkeys(np.ravel(fan(rows)).tolist())))]
        tests.tell(grid.step == F(step) and float(found[2]) == float(f"{step:.9g}") and (found[3] is None) == (float(F(step)) == step), f"{title}: the step is {grid.step}: {found[0]}")
        tests.tell(int(found[1]) == grid.bits and [F(it) for it in found.groups()[3:6]] == list(grid.minimum), f"{title}: bits and origin: {found[0]}")
        tests.tell(integers.min() >= 0 and integers.max() < (1 << grid.bits) - 1 and (grid.bits == 1 or integers.max() >= (1 << grid.bits - 1) - 1), f"{title}: the least bits")
        origin = np.round(grid.minimum.astype(np.float64) / step)
        tests.tell(np.abs(origin * step - grid.minimum).max() <= step / 1000 and (grid.minimum <= read.min(axis=0)).all(), f"{title}: the origin is a multiple")
        off = np.abs((origin + integers) * step - read).max()
        tests.tell(off <= step / 2 * (1 + 1e-6), f"{title}: the nearest multiples: {off / step} steps off")
        said = float(found[7])
        tests.tell(np.abs(geometry.numbers(0) - read).max() <= said <= 0.52 * step + np.spacing(F(np.abs(read).max())), f"{title}: {said} is printed")


def tiles(tests):
    """Two files that share places: by one step these stay shared, by a step that is a power of two bit for bit, and by one grid in any case."""
    draw = random.Random(6)
    for place, step in itertools.product(PLACES, (0.001, 0.0009765625, 0.05)):
        border = decimals(draw, place, 9, 200)
        parts = [border + decimals(draw, [it + more for it in place], wide, 50) for more, wide in ((-3, 4), (2, 30))]
        title = f"tiles of {step} at {place[0]}"
        found, there = [], []
        for k, rows in enumerate(parts):
            stream = tests.packed(title, tests.file(f"tile{k}.obj", obj(rows, fan(rows))), "--method", "seq", "--keep-degenerate", "--step", step)
            if not stream:
                return
            grid, integers, geometry = grid_of(tests, stream)
            number = {it: n for n, it in enumerate(dict.fromkeys(np.ravel(fan(rows)).tolist()))}
            found.append(np.asarray(geometry.numbers(0), np.float64)[[number[n] for n in range(len(border))]])
            there.append(geometry.floats(0)[[number[n] for n in range(len(border))]])
        apart = np.abs(found[0] - found[1]).max()
        is_exact = step == 0.0009765625
        tests.tell(apart == 0 if is_exact else apart < step / 100 + 2 * np.spacing(F(10 + abs(place[1]))) * (place[0] < 1e6), f"{title}: places apart by {apart / step} steps")
        tests.tell((there[0] == there[1]).all() or not is_exact, f"{title}: for readers of floats of 32 bits too")
    whole = decimals(draw, PLACES[1], 40, 400)
    parts = [whole[:250], whole[150:]]
    for words in (["--qp", "11"], ["--qp", "20"], ["--step", "0.02"], ["--step", "0.015625"]):
        title = f"--grid of a file packed by {' '.join(words)}"
        first = tests.file("whole.drc", tests.packed(title, tests.file("whole.obj", obj(whole, fan(whole))), "--method", "seq", "--keep-degenerate", *words).read_bytes())
        again = tests.packed(title, tests.folder / "whole.obj", "--method", "seq", "--keep-degenerate", "--grid", first)
        tests.tell(again and again.read_bytes() == first.read_bytes(), f"{title}: the same file has the same stream")
        grid, integers, _ = grid_of(tests, first)
        order = {it: n for n, it in enumerate(dict.fromkeys(np.ravel(fan(whole)).tolist()))}
        for k, (rows, start) in enumerate(zip(parts, (0, 150))):
            stream = tests.packed(title, tests.file("part.obj", obj(rows, fan(rows))), "--method", "seq", "--keep-degenerate", "--grid", first)
            its, numbers, _ = grid_of(tests, stream)
            mine = {it: n for n, it in enumerate(dict.fromkeys(np.ravel(fan(rows)).tolist()))}
            same = all((numbers[mine[n]] == integers[order[start + n]]).all() for n in range(len(rows)))
            tests.tell(same and (its.bits, its.range, its.minimum.tolist()) == (grid.bits, grid.range, grid.minimum.tolist()), f"{title}: part {k} has its integers and its grid")


def refusals(tests):
    """What no grid holds is refused in one line, and so are words that don't fit; the grid's file is an input."""
    scan, other = tests.file("scan.obj", scan_like(9).obj()), tests.file("other.obj", unwrapped().obj())
    grid = tests.file("grid.drc", tests.packed("grid", scan).read_bytes())
    out = tests.folder / "refused.drc"
    pack = lambda source, *words: tests.run("drc-pack", source, "-o", out, *words)
    one_line(tests, "outside", pack(other, "--grid", grid), 2, "other.obj: position 0 lies outside of the grid: 1 0 0; 14 bits", "origin")
    one_line(tests, "too fine", pack(scan, "--step", "1e-8"), 2, "scan.obj: position: a step of 1e-08 over 9", "more than 30 bits", "or more fits")
    fits = re.search(rb"a step of (\S+) or more fits", pack(scan, "--step", "1e-8").stderr)
    tests.tell(fits and tests.packed("a step that fits", scan, "--step", fits[1].decode()), f"the step that is said to fit does: {fits}")
    for word in ("0", "-1", "nan", "inf", "1e39", "1e-42", "x"):
        one_line(tests, f"--step {word}", pack(scan, "--step", word), 1, word, "is no step")
    one_line(tests, "step and grid", pack(scan, "--step", "1", "--grid", grid), 1, "not allowed with")
    one_line(tests, "step and bits", pack(scan, "--step", "1", "--qp", "9"), 1, "not allowed with")
    one_line(tests, "no grid file", pack(scan, "--grid", tests.folder / "none.drc"), 3, "none.drc can't be read")
    one_line(tests, "no stream", pack(scan, "--grid", scan), 2, "scan.obj", "refused Magic 0")
    whole = tests.file("whole.drc", tests.drc(["enc"], b"ply\nformat ascii 1.0\nelement vertex 3\nproperty int x\nproperty int y\nproperty int z\nelement face 1\nproperty list uchar int vertex_indices\n"
                                              b"end_header\n0 0 0\n1 0 0\n0 1 0\n3 0 1 2\n").stdout)
    one_line(tests, "integers have no grid", pack(scan, "--grid", whole), 2, "whole.drc", "no grid")
    text = tests.drc(["dec"], grid.read_bytes()).stdout
    for name, word in (("no step", "00000000"), ("infinite", "7f800000"), ("no number", "7fc00000")):
        bent = tests.file("bent.drc", tests.drc(["enc"], re.sub(rb"(drc quant 0 14) \w+", rb"\1 " + word.encode(), text)).stdout)
        one_line(tests, f"a grid of {name}", pack(scan, "--grid", bent), 2, "bent.drc", "no grid")
    ran = tests.run("drc-pack", scan, "-o", grid, "--grid", grid, "--force")
    one_line(tests, "the grid's file is an input", ran, 1, "is an input")
    folder, streams = tests.folder / "meshes", tests.folder / "streams"
    folder.mkdir()
    shutil.copy(scan, folder / "scan.obj")
    shutil.copy(other, folder / "other.obj")
    for words, status in ((["--step", "0.125"], 0), (["--grid", grid], 2)):
        for do in (["pack", "--maps"], ["verify"]):
            ran = tests.run("drc-many", do[0], folder, "-o", streams, "--one-by-one", "--force", *do[1:], *words)
            tests.tell(ran.returncode == status, f"drc-many {do} {words}: {ran.stdout.decode()} {ran.stderr.decode()}")
        tests.tell(grid_of(tests, streams / "scan.drc")[0].step == (F(0.125) if status == 0 else grid_of(tests, grid)[0].step), f"drc-many pack {words}: the step")
        report = (streams / "drc-many-pack.csv").read_text()
        tests.tell(("lies outside of the grid" in report) == (status == 2), f"drc-many pack {words}: the report says what lies outside")


def methods(tests):
    """From a thousand faces on a mesh is coded by valence where no method is asked for, and it comes back."""
    positions, faces = lattice(30, lambda x, y: x * y, 0.0, 3)
    for count, words, wanted in ((999, [], "eb"), (1000, [], "valence"), (1000, ["--method", "eb"], "eb"), (1000, ["--method", "seq"], "seq"), (1000, ["--predict", "multi", "--walk", "degree"], "valence"),
                                 (1800, ["--plain-values"], "valence")):
        mesh = Made("lattice", positions, faces[:count])
        stream = tests.packed(f"{count} faces {words}", tests.file("lattice.obj", mesh.obj()), *words)
        if stream:
            kind = tests.drc(["info"], stream.read_bytes()).stdout.decode().split("\n")[0].split()[-1]
            tests.tell(kind == wanted, f"{count} faces {words}: {kind}")
    sizes = [len(tests.packed("sizes", tests.file("scan.obj", scan_like().obj()), *words).read_bytes()) for words in ([], ["--method", "eb"])]
    tests.tell(sizes[0] < sizes[1], f"valence takes fewer bytes of a scan: {sizes}")


def cloud_text(rows, colours):
    head = f"ply\nformat ascii 1.0\nelement vertex {len(rows)}\n" + "".join(f"property float {it}\n" for it in "xyz") + "".join(f"property uchar {it}\n" for it in ("red", "green", "blue"))
    return (head + "end_header\n" + "".join(f"{' '.join(row)} {' '.join(map(str, colour))}\n" for row, colour in zip(rows, colours))).encode()


def curve(tests):
    """Points of a whole block of cells come in an order in which each is beside the one before; equal ones keep theirs."""
    for axes, bits in ((1, 4), (2, 4), (3, 3), (4, 2)):
        cells = np.stack(np.meshgrid(*[np.arange(1 << bits)] * axes, indexing="ij"), -1).reshape(-1, axes) - 3
        cells = cells[np.random.default_rng(axes).permutation(len(cells))]
        order = curves.order_of(cells)
        tests.tell(sorted(order.tolist()) == list(range(len(cells))) and (np.abs(np.diff(cells[order], axis=0)).sum(axis=1) == 1).all(), f"a curve through cells of {axes} axes")
    far = np.array([[0, 0, 0], [2**31 - 1, -(2**31), 5], [0, 0, 0], [2**31 - 1, -(2**31), 5]])
    tests.tell(curves.order_of(far).tolist() in ([0, 2, 1, 3], [1, 3, 0, 2]), "equal points keep their order, and integers of 32 bits are told apart")
    tests.tell(curves.order_of(np.zeros((0, 3), int)).tolist() == [], "no points")


def clouds(tests):
    """A cloud packed by --sort has the same points, takes fewer bytes, and its map has their numbers in the file: verify says yes of the text, and
    the order comes back."""
    draw = random.Random(9)
    heights = [(x, y, 0.1 * np.sin(9 * x) * np.cos(7 * y)) for x, y in ((draw.random(), draw.random()) for _ in range(5000))]
    rows = [tuple(f"{it:.6f}" for it in row) for row in heights] + [("0.5", "0.5", "0.5")] * 3
    colours = [[draw.randrange(256) for _ in range(3)] for _ in rows]
    source = tests.file("cloud.ply", cloud_text(rows, colours))
    text, moves = tests.folder / "cloud.txt", tests.folder / "cloud.map"
    plain = tests.packed("a cloud", source, "--text", tests.folder / "plain.txt").read_bytes()
    for words in ([], ["--step", "0.0001"], ["--qp", "9"]):
        title = f"--sort {' '.join(words)}"
        stream = tests.packed(title, source, "--sort", "--text", text, "--map", moves, *words)
        if not stream:
            continue
        tests.tell(bool(words) or len(stream.read_bytes()) < 0.85 * len(plain) and text.read_bytes() == (tests.folder / "plain.txt").read_bytes(), f"{title}: {len(stream.read_bytes())} and {len(plain)} bytes, and the text of before")
        given, found = (plytext.read_text(it) for it in (text.read_bytes(), tests.drc(["dec"], stream.read_bytes()).stdout))
        numbers = map_rows(moves)
        tests.tell(sorted(numbers[:, 0]) == list(range(len(rows))) and not numbers[:, 1].any(), f"{title}: the map has each point")
        tests.tell(all((a[numbers[:, 0]] == b).all() for a, b in zip(given.values, found.values)), f"{title}: each point is where the map says")
        twins = numbers[numbers[:, 0] >= len(rows) - 3, 0]
        tests.tell((np.diff(twins) > 0).all(), f"{title}: equal points keep their order")
        ran = tests.drc(["verify"], moves.read_bytes() + b"ply %d\n" % text.stat().st_size + text.read_bytes() + stream.read_bytes())
        tests.tell(ran.stdout == b"same %d\n" % len(rows), f"{title}: verify: {ran.stdout} {ran.stderr}")
        back = plytext.read_text(tests.drc(["dec"], tests.drc(["recode", "--restore"], moves.read_bytes() + stream.read_bytes()).stdout).stdout)
        tests.tell(all((a == b).all() for a, b in zip(given.values, back.values)), f"{title}: the order comes back by the map")
        if shutil.which("draco_decoder"):
            ran = subprocess.run(["draco_decoder", "-i", str(stream), "-o", str(tests.folder / "there.ply")], stdout=subprocess.DEVNULL, stderr=subprocess.DEVNULL, check=False)
            tests.tell(ran.returncode == 0, f"{title}: draco_decoder reads it")
    tests.folder.joinpath("line.xyz").write_text("".join(f"{k} 0 {k % 2}\n" for k in range(3000)))
    for words in ([], ["--predict", "none"], ["--plain-values"]):
        ran = tests.run("drc-pack", tests.folder / "line.xyz", "-o", tests.folder / "line.drc", "--sort", "--map", moves, "--force", *words)
        alone = tests.packed("a line", tests.folder / "line.xyz", *words).read_bytes()
        said = re.search(rb"the points keep their order, in which the stream has ([\d,]+) bytes; along the curve it would have ([\d,]+)", ran.stderr)
        tests.tell((tests.folder / "line.drc").read_bytes() == alone and said and said[1].decode() == f"{len(alone):,}", f"a cloud that is shorter as it stands keeps its order {words}: {ran.stderr}")
        tests.tell((map_rows(moves)[:, 0] == np.arange(3000)).all(), f"and the map says so {words}")
    ran = tests.run("drc-pack", tests.file("mesh.ply", coloured().ply()), "-o", tests.folder / "mesh.drc", "--sort")
    one_line(tests, "a mesh by --sort", subprocess.CompletedProcess(ran.args, ran.returncode, b"", ran.stderr), 0, "the points keep their order, since --sort is for clouds")
    one_line(tests, "a cloud with Edgebreaker", tests.run("drc-pack", source, "-o", tests.folder / "x.drc", "--sort", "--method", "eb"), 2, "refused Choice 0")
    folder, streams = tests.folder / "clouds", tests.folder / "sorted"
    folder.mkdir()
    shutil.copy(source, folder / "cloud.ply")
    for do in (["pack", "--maps"], ["verify"]):
        ran = tests.run("drc-many", do[0], folder, "-o", streams, "--one-by-one", "--sort", *do[1:])
        tests.tell(ran.returncode == 0, f"drc-many {do} --sort: {ran.stdout.decode()} {ran.stderr.decode()}")
    tests.tell((streams / "cloud.drc").read_bytes() == tests.packed("alone", source, "--sort").read_bytes(), "drc-many packs as drc-pack does")


run(steps, tiles, refusals, methods, curve, clouds)
