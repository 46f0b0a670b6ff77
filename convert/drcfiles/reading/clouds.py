"""Clouds of points: XYZ and its kin (rows of numbers), and PCD (of the Point Cloud Library, version 0.7), as text or plain binary."""
import re

import numpy as np

from ..files import read as read_bytes
from ..mesh import POINTS, Attribute, Mesh, check_count, colour_bytes, many
from ..plytext import COLOUR, GENERIC, NORMAL, POSITION, TYPE_OF
from ..trouble import Trouble

XYZ = (".xyz", ".xyzn", ".xyzrgb", ".pts", ".asc")
COLUMNS = {3: "", 4: "i", 6: "", 7: "i", 9: "", 10: "i"}  # which numbers of columns are known, and whether an intensity stands behind x y z
KINDS = {"F4": "<f4", "F8": "<f8", "I1": "<i1", "I2": "<i2", "I4": "<i4", "U1": "<u1", "U2": "<u2", "U4": "<u4"}
WHERE = "0 0 0 1 0 0 0"  # the place and turn of a sensor that says nothing


def of_file(path):
    """The lines of a text, whatever ends them."""
    return read_bytes(path).replace(b"\r\n", b"\n").replace(b"\r", b"\n")


def rows_of(path, lines, first, width):
    """The numbers of lines that have as many words each; `first` is the number of the first line."""
    try:
        table = np.array([line.split() for line in lines], np.float64)
    except ValueError:
        table = None
    if table is not None and table.ndim == 2 and table.shape[1] == width:
        return table
    for number, line in enumerate(lines, first):
        words = line.split()
        if len(words) != width:
            raise Trouble(f"{path} line {number}: {many(len(words), 'number')}, {width} are due")
        for word in words:
            try:
                float(word)
            except ValueError:
                raise Trouble(f"{path} line {number}: {word.decode('utf-8', 'replace')[:40]} is no number") from None
    return np.zeros((0, width))


# XYZ.


def read_xyz(path):
    """A point a line: x y z, then as many numbers as the columns have: an intensity (4, 7, 10), and colours or normals (6, 7, 9, 10).
    Three columns of whole numbers from 0 to 255 are colours, of lengths of 1 normals, and any other is a generic attribute."""
    lines = of_file(path).split(b"\n")
    while lines and not lines[-1].strip():
        lines.pop()
    start = 0
    while start < len(lines) and (not lines[start].strip() or lines[start].lstrip()[:1] in (b"#", b"/", b";") or re.match(rb"\s*[A-Za-z_\"]", lines[start])):
        start += 1
    if start < len(lines) and len(lines[start].split()) == 1 and lines[start].strip().isdigit():  # PTS begins with the number of points
        start += 1
    check_count("PointLimit", "the cloud", len(lines) - start, POINTS, path)
    lines = lines[start:]
    if not lines:
        raise Trouble(f"{path}: no points")
    if b"," in lines[0]:
        if len(lines[0].split()) >= 3 and all(b"," in it for it in lines[0].split()[:3]) and not lines[0].split()[0].endswith(b","):
            raise Trouble(f"{path} line {start + 1}: numbers with a comma in place of a point")
        lines = [line.replace(b",", b" ") for line in lines]
    lines = [line.replace(b";", b" ") for line in lines] if b";" in lines[0] else lines
    width = len(lines[0].split())
    if width < 3:
        raise Trouble(f"{path} line {start + 1}: {many(width, 'number')}, 3 are due")
    table = rows_of(path, lines, start + 1, width)
    attributes, place = [Attribute(POSITION, table[:, :3])], 3
    if COLUMNS.get(width) == "i":
        attributes.append(column("intensity", table[:, 3]))
        place = 4
    notes = []
    while width - place >= 3 and width in COLUMNS:
        part = table[:, place : place + 3]
        usage = meaning(part)
        if usage is None or any(it.usage == usage for it in attributes):
            break
        attributes.append(Attribute(usage, colour_bytes(part) if usage == COLOUR else part))
        notes.append(f"columns {place + 1} to {place + 3} taken as {'colours' if usage == COLOUR else 'normals'}")
        place += 3
    attributes += [column(f"column{k + 1}", table[:, k]) for k in range(place, width)]
    return Mesh(attributes, None, notes)


def meaning(part):
    """What three columns are, by their values: colours, normals, or None."""
    if (part == np.floor(part)).all() and part.min() >= 0 and part.max() <= 255 and part.max() > 1:
        return COLOUR
    length = np.linalg.norm(part, axis=1)
    return NORMAL if (np.abs(length - 1) < 1e-2).mean() > 0.99 else None


def column(name, values):
    """A generic attribute of one column: whole numbers in the least type of theirs, else floats."""
    if values.dtype.kind == "f" and np.isfinite(values).all() and (values == np.floor(values)).all():
        kind = next((it for it in (np.uint8, np.int8, np.uint16, np.int16, np.int32) if np.iinfo(it).min <= values.min() and values.max() <= np.iinfo(it).max), None)
        values = values if kind is None else values.astype(kind)
    return Attribute(GENERIC, values.reshape(-1, 1), name)


# PCD.


def read_pcd(path):
    """The fields of a PCD by their names: x y z, normals, rgb or rgba; any other is generic. Points that have no place (NaN, as PCD has
    those that a sensor didn't see) are left out."""
    data = read_bytes(path)
    head = re.search(rb"^DATA[ \t]+(\w+)[ \t]*\r?\n", data[: 1 << 16], re.M)
    if not head:
        raise Trouble(f"{path}: no PCD header (a line `DATA` at its end)")
    said = {words[0]: words[1:] for words in (line.partition("#")[0].split() for line in data[: head.start()].decode("utf-8", "replace").splitlines()) if words}
    try:
        names, sizes, types = said["FIELDS"], said["SIZE"], said["TYPE"]
        counts = [int(it) for it in said.get("COUNT", ["1"] * len(names))]
        points = int(said["POINTS"][0]) if "POINTS" in said else int(said["WIDTH"][0]) * int(said["HEIGHT"][0])
        fields = [(name, KINDS[kind + size], count) for name, size, kind, count in zip(names, sizes, types, counts, strict=True)]
    except (KeyError, ValueError, IndexError) as why:
        raise Trouble(f"{path}: the PCD header's FIELDS, SIZE, TYPE, COUNT or POINTS isn't as it has to be ({why})") from None
    check_count("PointLimit", "its header", points, POINTS, path)
    columns = {"ascii": text_columns, "binary": binary_columns}.get(head[1].decode())
    if not columns:
        raise Trouble(f"{path}: its points are {head[1].decode()}, and `ascii` and `binary` are read")
    table = columns(path, data, head.end(), fields, points)
    notes = [f"the sensor's place and turn left out: {' '.join(said['VIEWPOINT'])}"] if said.get("VIEWPOINT", WHERE.split()) != WHERE.split() else []
    return of_columns(path, table, notes)


def text_columns(path, data, place, fields, points):
    width = sum(count for _, _, count in fields)
    lines = [line for line in data[place:].replace(b"\r", b"\n").split(b"\n") if line.strip()]
    if len(lines) < points:
        raise Trouble(f"{path} is cut: it ends behind {len(lines):,} of {many(points, 'point')}")
    rows = rows_of(path, lines[:points], data[:place].count(b"\n") + 1, width).reshape(points, width)
    made, at = [], 0
    for name, kind, count in fields:
        for k in range(count):
            values = rows[:, at]
            made.append((name, k, count, values if kind[1] == "f" else values.astype(kind, casting="unsafe")))
            at += 1
    return made


def binary_columns(path, data, place, fields, points):
    row = np.dtype([(f"{k}", kind, (count,)) for k, (_, kind, count) in enumerate(fields)])
    if len(data) - place < points * row.itemsize:
        raise Trouble(f"{path} is cut: {many(points, 'point')} take {points * row.itemsize:,} bytes, and here are {len(data) - place:,}")
    rows = np.frombuffer(data, row, points, place)
    return [(name, j, count, rows[f"{k}"][:, j]) for k, (name, _, count) in enumerate(fields) for j in range(count)]


def of_columns(path, table, notes):
    first = {name: values for name, k, _, values in table if k == 0}
    if not all(name in first for name in ("x", "y", "z")):
        raise Trouble(f"{path}: the points have no fields x, y, z")
    places = np.stack([first[name] for name in ("x", "y", "z")], axis=1)
    seen = ~np.isnan(places).any(axis=1)
    if not seen.all():
        notes.append(f"{many(int((~seen).sum()), 'point')} without a place (NaN) left out")
    attributes, taken = [Attribute(POSITION, places[seen])], {"x", "y", "z"}
    if all(f"normal_{it}" in first for it in "xyz"):
        normals = np.stack([first[f"normal_{it}"] for it in "xyz"], axis=1)[seen]
        unknown = ~np.isfinite(normals).all(axis=1)
        if unknown.any():
            notes.append(f"{many(int(unknown.sum()), 'point')} without a normal (NaN), which gets zeros")
            normals = np.where(unknown[:, None], 0, normals)
        attributes.append(Attribute(NORMAL, normals))
        taken |= {f"normal_{it}" for it in "xyz"}
    packed = next((name for name in ("rgba", "rgb") if name in first), None)
    if packed:
        attributes.append(Attribute(COLOUR, colours_of(first[packed][seen], 4 if packed == "rgba" else 3)))
        taken |= {"rgb", "rgba"}
    attributes += [column(name if count == 1 else f"{name}[{k}]", as_kept(values[seen])) for name, k, count, values in table if name not in taken and name != "_"]
    return Mesh(attributes, None, notes)


def as_kept(values):
    return values if values.dtype.kind == "f" or values.dtype.newbyteorder("=").name in TYPE_OF else values.astype(np.int32)


def colours_of(values, comps):
    """Colours that are packed into a number of 32 bits, 0xAARRGGBB, or into the float that has its bits."""
    if values.dtype.kind == "f":
        values = values.astype("<f4").view("<u4")
    values = values.astype(np.int64)
    return np.stack([values >> shift & 255 for shift in (16, 8, 0, 24)[:comps]], axis=1).astype(np.uint8)
