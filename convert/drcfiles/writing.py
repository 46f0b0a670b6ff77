"""Writing a decoded geometry as PLY, OBJ, STL or GLB. Floats are written as they are decoded, bit for bit, and nothing is turned over. Where
floats of 32 bits can't tell the steps of a grid, PLY and OBJ have doubles."""
import struct

import numpy as np

from . import glb
from .mesh import WORDS, at_least
from .plytext import COLOUR, NORMAL, POSITION, TEXTURE, TYPES, lines_of, names_of
from .trouble import Trouble

DIGITS = "%.9g"  # nine digits name each float of 32 bits
ROWS_AT_ONCE = 1 << 16
SPECS = {"char": "<i1", "uchar": "<u1", "short": "<i2", "ushort": "<u2", "int": "<i4", "uint": "<u4", "float": "<f4", "double": "<f8"}


def type_of(head):
    return TYPES[head.dtype] if not head.has_floats else "double" if head.grid and head.grid.is_fine else "float"


def floats_of(geometry, usage):
    """The values of the first attribute of a usage as floats of 32 bits, or None."""
    k = geometry.first(usage)
    return None if k is None else geometry.floats(k).astype(np.float32)


def places_of(geometry, name):
    """The positions as floats of three components."""
    places = floats_of(geometry, POSITION)
    if places is None or places.shape[1] != 3:
        raise Trouble(f"no position of three components, which {name} has to have")
    return places


def left_out(geometry, name, kept):
    """What is said of the attributes that a format has no room for, and of positions that its floats can't tell."""
    position, notes = geometry.first(POSITION), []
    if name == "STL" and geometry.origin(position) is not None:
        wide = np.abs(geometry.numbers(position) - geometry.floats(position)).max(initial=0)
        notes.append(f"positions are up to {at_least(wide)} off in STL, which has floats of 32 bits; PLY and OBJ have doubles here")
    firsts = {geometry.first(usage) for usage in kept}
    left = [f"{k} ({WORDS[head.usage]})" for k, head in enumerate(geometry.heads) if k not in firsts]
    return notes + ([f"attributes left out, which {name} has no room for: {', '.join(left)}"] if left else [])


def float_lines(table, before=""):
    """The rows of a table of floats or doubles as lines."""
    line = before + " ".join([DIGITS if table.dtype == np.float32 else "%r"] * table.shape[1]) + "\n"
    for start in range(0, len(table), ROWS_AT_ONCE):
        part = table[start : start + ROWS_AT_ONCE]
        yield (line * len(part) % tuple(part.ravel().tolist())).encode()


def ply(geometry, is_text):
    """All attributes, floats as `float` and integers as their type; binary, or text."""
    names = names_of(geometry.heads, of_floats=True)
    columns = [(name, type_of(head)) for head, group in zip(geometry.heads, names) for name in group]
    head = ["ply", "format ascii 1.0" if is_text else "format binary_little_endian 1.0", f"element vertex {geometry.points}"]
    head += [f"property {kind} {name}" for name, kind in columns]
    if geometry.faces is not None:
        head += [f"element face {len(geometry.faces)}", "property list uchar int vertex_indices"]
    parts = [("\n".join(head) + "\nend_header\n").encode()]
    tables = [geometry.numbers(k) for k in range(len(geometry.heads))]
    if is_text:
        line = " ".join({"float": DIGITS, "double": "%r"}.get(kind, "%d") for _, kind in columns) + "\n"
        flat = [column for table in tables for column in table.T]
        for start in range(0, geometry.points, ROWS_AT_ONCE):
            rows = list(zip(*(column[start : start + ROWS_AT_ONCE].tolist() for column in flat)))
            parts.append(("".join(line % row for row in rows)).encode())
        if geometry.faces is not None:
            parts += lines_of(geometry.faces, "3 ")
    else:
        rows = np.zeros(geometry.points, np.dtype([(f"{k}", SPECS[type_of(it)], (it.wide,)) for k, it in enumerate(geometry.heads)]))
        for k, table in enumerate(tables):
            rows[f"{k}"] = table
        parts.append(rows.tobytes())
        if geometry.faces is not None:
            faces = np.zeros(len(geometry.faces), np.dtype([("count", "u1"), ("at", "<i4", (3,))]))
            faces["count"], faces["at"] = 3, geometry.faces
            parts.append(faces.tobytes())
    return b"".join(parts), []


def distinct(tables):
    """Rows of integers that are equal as one, in the order in which they come first: the first of each, and each row's number."""
    table = np.concatenate([np.asarray(it, np.int64) for it in tables], axis=1)
    _, first, number = np.unique(table, axis=0, return_index=True, return_inverse=True)
    order = np.argsort(first, kind="stable")
    place = np.empty(len(order), np.int64)
    place[order] = np.arange(len(order))
    return first[order], place[number]


def obj(geometry, _):
    """Positions with colours, texture coordinates and normals, each listed once, so that seams of one don't part the others."""
    places_of(geometry, "OBJ")
    places = geometry.numbers(geometry.first(POSITION))
    places = places.astype(np.float32) if places.dtype != np.float64 else places
    colour, texture, normal = geometry.first(COLOUR), geometry.first(TEXTURE), geometry.first(NORMAL)
    if texture is not None and geometry.heads[texture].wide != 2:
        texture = None
    if normal is not None and geometry.heads[normal].wide != 3:
        normal = None
    if colour is not None and (geometry.heads[colour].comps not in (3, 4) or geometry.heads[colour].dtype != 2):
        colour = None
    at = geometry.values[geometry.first(POSITION)]
    first, corners = distinct([at] if colour is None else [at, geometry.values[colour]])
    shown = places[first]
    if colour is not None:
        shares = geometry.values[colour][first, :3].astype(np.float32) / np.float32(255)
        shown = np.concatenate([shown, shares.astype(shown.dtype)], axis=1)
    parts, numbers = [*float_lines(shown, "v ")], [corners + 1]
    for k, word in ((texture, "vt "), (normal, "vn ")):
        if k is None:
            numbers.append(None)
            continue
        first, number = distinct([geometry.values[k]])
        table = geometry.numbers(k)[first]
        parts += float_lines(table if table.dtype == np.float64 else table.astype(np.float32), word)
        numbers.append(number + 1)
    if geometry.faces is not None:
        corner = "%d" if texture is None and normal is None else "%d/%d" if normal is None else "%d//%d" if texture is None else "%d/%d/%d"
        there = [it[geometry.faces] for it in numbers if it is not None]
        table = np.stack(there, axis=2).reshape(len(geometry.faces), -1)
        line = f"f {corner} {corner} {corner}\n"
        for start in range(0, len(table), ROWS_AT_ONCE):
            part = table[start : start + ROWS_AT_ONCE]
            parts.append((line * len(part) % tuple(part.ravel().tolist())).encode())
    kept = [POSITION] + [usage for usage, k in ((COLOUR, colour), (TEXTURE, texture), (NORMAL, normal)) if k is not None]
    return b"".join(parts), left_out(geometry, "OBJ", kept)


def stl(geometry, is_text):
    """The triangles by their positions, binary or text, with the normals of the triangles."""
    if geometry.faces is None:
        raise Trouble("a cloud has no triangles, which STL is made of; .ply, .obj and .glb take it")
    corners = places_of(geometry, "STL")[geometry.faces]
    wide = corners.astype(np.float64)
    normals = np.cross(wide[:, 1] - wide[:, 0], wide[:, 2] - wide[:, 0])
    length = np.linalg.norm(normals, axis=1, keepdims=True)
    normals = np.divide(normals, length, out=np.zeros_like(normals), where=length > 0).astype(np.float32)
    notes = left_out(geometry, "STL", [POSITION])
    if is_text:
        line = (f"facet normal {DIGITS} {DIGITS} {DIGITS}\nouter loop\n" + f"vertex {DIGITS} {DIGITS} {DIGITS}\n" * 3 + "endloop\nendfacet\n")
        rows = np.concatenate([normals, corners.reshape(-1, 9)], axis=1).tolist()
        return ("solid mesh\n" + "".join(line % tuple(row) for row in rows) + "endsolid mesh\n").encode(), notes
    rows = np.zeros(len(corners), np.dtype([("normal", "<f4", (3,)), ("corners", "<f4", (3, 3)), ("rest", "<u2")]))
    rows["normal"], rows["corners"] = normals, corners
    return b"drc-unpack".ljust(80, b" ") + struct.pack("<I", len(rows)) + rows.tobytes(), notes


def glb_file(geometry, _):
    """One mesh of one primitive: positions, normals, texture coordinates and colours; a cloud as points. Positions that floats of 32 bits can't
    tell at their places are counted from their origin, to which the node moves them."""
    places_of(geometry, "GLB")
    position = geometry.first(POSITION)
    places, origin = geometry.from_origin(position).astype(np.float32), geometry.origin(position)
    binary, views, accessors, attributes = bytearray(), [], [], {}

    def add(data, component, kind, count, target, **more):
        binary.extend(b"\0" * (-len(binary) % 4))
        views.append({"buffer": 0, "byteOffset": len(binary), "byteLength": len(data), "target": target})
        binary.extend(data)
        accessors.append({"bufferView": len(views) - 1, "componentType": component, "count": count, "type": kind, **more})
        return len(accessors) - 1

    least = {"min": [float(it) for it in places.min(axis=0)], "max": [float(it) for it in places.max(axis=0)]} if len(places) else {}
    attributes["POSITION"] = add(places.astype("<f4").tobytes(), 5126, "VEC3", len(places), 34962, **least)
    kept = [POSITION]
    for usage, name, comps, kind in ((NORMAL, "NORMAL", 3, "VEC3"), (TEXTURE, "TEXCOORD_0", 2, "VEC2")):
        k = geometry.first(usage)
        if k is not None and geometry.heads[k].wide == comps:
            attributes[name] = add(geometry.floats(k).astype("<f4").tobytes(), 5126, kind, geometry.points, 34962)
            kept.append(usage)
    k = geometry.first(COLOUR)
    if k is not None and geometry.heads[k].dtype == 2 and geometry.heads[k].comps in (3, 4):
        colours = np.full((geometry.points, 4), 255, np.uint8)
        colours[:, : geometry.heads[k].comps] = geometry.values[k]
        attributes["COLOR_0"] = add(colours.tobytes(), 5121, "VEC4", geometry.points, 34962, normalized=True)
        kept.append(COLOUR)
    primitive = {"attributes": attributes, "mode": 0 if geometry.faces is None else 4}
    if geometry.faces is not None:
        kind, component = ("<u2", 5123) if geometry.points < 65536 else ("<u4", 5125)
        primitive["indices"] = add(geometry.faces.astype(kind).tobytes(), component, "SCALAR", geometry.faces.size, 34963)
    document = {"asset": {"version": "2.0", "generator": "drc-unpack"}, "scene": 0, "scenes": [{"nodes": [0]}],
                "nodes": [{"mesh": 0} if origin is None else {"mesh": 0, "translation": origin.tolist()}], "meshes": [{"primitives": [primitive]}], "accessors": accessors, "bufferViews": views, "buffers": [{"byteLength": len(binary)}]}
    notes = [] if origin is None else [f"positions are counted from {' '.join(map(str, origin))}, to which the node moves them, since floats of 32 bits can't tell them at their places"]
    return glb.write_glb(document, bytes(binary)), notes + left_out(geometry, "GLB", kept)


WRITERS = {".ply": ply, ".obj": obj, ".stl": stl, ".glb": glb_file}
