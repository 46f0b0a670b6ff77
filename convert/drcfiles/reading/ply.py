"""PLY 1.0, text and binary, with lines that end in LF, CR LF or CR: columns of points by their names, faces of any number of corners.

Integers stay integers of their type. Where a text has the heads of docs/PLY.md (`comment drc attr`), these are kept."""
import re
import warnings

import numpy as np

from ..files import read as read_bytes
from ..grids import Grid
from ..mesh import POINTS, Attribute, Mesh, check_count, colour_bytes, many
from ..plytext import COLOUR, GENERIC, NORMAL, POSITION, QUANTISED, TEXTURE, TYPE_OF, Head, float_of
from ..polygons import split
from ..trouble import Trouble

KINDS = {"char": "i1", "int8": "i1", "uchar": "u1", "uint8": "u1", "short": "i2", "int16": "i2", "ushort": "u2", "uint16": "u2",
         "int": "i4", "int32": "i4", "uint": "u4", "uint32": "u4", "float": "f4", "float32": "f4", "double": "f8", "float64": "f8"}
ORDERS = {"ascii": "", "binary_little_endian": "<", "binary_big_endian": ">"}
GROUPS = ((POSITION, "x y z"), (NORMAL, "nx ny nz"), (COLOUR, "red green blue alpha"), (COLOUR, "red green blue"),
          (COLOUR, "diffuse_red diffuse_green diffuse_blue"), (TEXTURE, "s t"), (TEXTURE, "u v"), (TEXTURE, "texture_u texture_v"))


class Element:
    """What the header says of an element: its name, its number of rows, and for each property its name, its type, and the type of a list's count."""

    def __init__(self, name, count):
        self.name, self.count, self.properties = name, count, []


def read(path):
    data = read_bytes(path)
    order, elements, comments, place = header(path, data)
    for element in elements:
        if element.name == "vertex":
            check_count("PointLimit", "its header", element.count, POINTS, path)
    source = Text(path, data, place) if order == "" else Binary(path, data, place, order)
    tables = {}
    for element in elements:
        tables[element.name] = source.table(element)
        if element.name == "face" or element.name == "vertex" and not any(it.name == "face" for it in elements):
            break
    if "vertex" not in tables:
        raise Trouble(f"{path}: no `element vertex` before the faces")
    by_name = {it.name: it for it in elements}
    notes = left_of(elements, data[:place])
    attributes = heads_kept(path, tables["vertex"], comments) or attributes_of(path, by_name["vertex"], tables["vertex"], notes)
    if "face" not in by_name:
        return Mesh(attributes, None, notes)
    lists = [it[0] for it in by_name["face"].properties if it[2] and it[0] in ("vertex_indices", "vertex_index")]
    if not lists:
        raise Trouble(f"{path}: the faces have no list `vertex_indices` or `vertex_index`")
    left = [it[0] for it in by_name["face"].properties if it[0] != lists[0]]
    if left:
        notes.append(f"properties of faces left out: {', '.join(left)}")
    faces, more = split(*tables["face"][lists[0]], attributes[0].values)
    return Mesh(attributes, faces, notes + more)


def left_of(elements, head):
    """What is said of other elements than points and faces, and of files of textures."""
    left = [many(it.count, f"row of the element {it.name}", f"rows of the element {it.name}") for it in elements if it.name not in ("vertex", "face") and it.count]
    textures = dict.fromkeys(it.decode("utf-8", "replace").strip() for it in re.findall(rb"comment TextureFile ([^\r\n]+)", head))
    left += [f"the texture {it}" for it in textures]
    return [f"left out: {', '.join(left)}"] if left else []


def header(path, data):
    """The order of bytes ('': text), the elements, the comments of `drc`, and the place behind the header."""
    begin = re.match(rb"ply[ \t]*(\r?\n|\r)", data)
    line_end = b"\r" if begin and begin[1] == b"\r" else b"\n"
    end = re.search(rb"[\r\n]end_header[ \t]*" + (line_end if line_end == b"\r" else rb"\r?\n"), data[: 1 << 20])
    if not begin or not end:
        raise Trouble(f"{path}: no PLY header (a line `ply` first, and `end_header`)")
    order, elements, comments = None, [], []
    for number, line in enumerate(data[: end.start()].decode("utf-8", "replace").split(line_end.decode()), 1):
        words = line.split()
        wrong = Trouble(f"{path} line {number}: no header line of PLY 1.0: {line.strip()[:60]}")
        if number == 1 or not words or words[0] == "obj_info":
            continue
        if words[0] == "comment":
            if words[1:2] == ["drc"]:
                comments.append(words[2:])
        elif words[0] == "format" and len(words) == 3 and words[1] in ORDERS:
            order = ORDERS[words[1]]
        elif words[0] == "element" and len(words) == 3 and words[2].isdigit():
            elements.append(Element(words[1], int(words[2])))
        elif words[0] == "property" and elements and len(words) == 3 and words[1] in KINDS:
            elements[-1].properties.append((words[2], KINDS[words[1]], None))
        elif words[:2] == ["property", "list"] and elements and len(words) == 5 and words[2] in KINDS and words[3] in KINDS:
            elements[-1].properties.append((words[4], KINDS[words[3]], KINDS[words[2]]))
        else:
            raise wrong
    if order is None:
        raise Trouble(f"{path}: no `format` line in the PLY header")
    return order, elements, comments, end.end()


class Source:
    """The rows of the elements. A table has for each property a column, or for a list its counts and its numbers."""

    def cut(self, element, row):
        return Trouble(f"{self.path} is cut: it ends in {element.name} {row:,} (counted from 0) of {element.count:,}")


class Binary(Source):
    def __init__(self, path, data, place, order):
        self.path, self.data, self.place, self.order = path, data, place, order

    def table(self, element):
        plain = self.plain(element)
        return plain if plain is not None else self.row_by_row(element)

    def plain(self, element):
        """All rows at once, where each list is as long as in the first row."""
        fields, place = [], self.place
        for name, kind, count in element.properties:
            size = np.dtype(kind).itemsize
            if not count:
                fields.append((name, self.order + kind))
                place += size
                continue
            if place + np.dtype(count).itemsize > len(self.data) or not element.count:
                return None
            length = int(np.frombuffer(self.data, self.order + count, 1, place)[0])
            if not 0 <= length < 256:
                return None
            fields += [(f"{name} count", self.order + count), (name, self.order + kind, (length,))]
            place += np.dtype(count).itemsize + size * length
        row = np.dtype(fields)
        if self.place + row.itemsize * element.count > len(self.data):
            if any(it[2] for it in element.properties):
                return None
            raise self.cut(element, (len(self.data) - self.place) // max(1, row.itemsize))
        rows = np.frombuffer(self.data, row, element.count, self.place)
        table = {}
        for name, _, count in element.properties:
            if count:
                length = row[name].shape[0]
                if (rows[f"{name} count"] != length).any():
                    return None
                table[name] = (np.full(element.count, length), rows[name].ravel())
            else:
                table[name] = rows[name]
        self.place += row.itemsize * element.count
        return table

    def row_by_row(self, element):
        made = {name: ([], []) if count else [] for name, _, count in element.properties}
        order = "little" if self.order == "<" else "big"
        place, data = self.place, self.data
        for number in range(element.count):
            for name, kind, count in element.properties:
                size = int(kind[1])
                length = 1
                if count:
                    length = int.from_bytes(data[place : place + int(count[1])], order)
                    place += int(count[1])
                if place + size * length > len(data):
                    raise self.cut(element, number)
                values = np.frombuffer(data, self.order + kind, length, place)
                place += size * length
                if count:
                    made[name][0].append(length)
                    made[name][1].append(values)
                else:
                    made[name].append(values[0])
        self.place = place
        joined = lambda parts: np.concatenate(parts) if parts else np.zeros(0, np.int64)
        return {name: (np.array(it[0], np.int64), joined(it[1])) if isinstance(it, tuple) else np.array(it) for name, it in made.items()}


class Text(Source):
    def __init__(self, path, data, place):
        self.path, self.place = path, 0
        body = data[place:].decode("ascii", "replace")
        try:
            with warnings.catch_warnings():
                warnings.simplefilter("error", DeprecationWarning)
                self.numbers = np.fromstring(body, np.float64, sep=" ") if body.strip() else np.zeros(0)
        except (DeprecationWarning, ValueError):  # some word is no number
            self.numbers = np.array([self.number(word, k, data, place) for k, word in enumerate(body.split())])

    def number(self, word, k, data, place):
        try:
            return float(word)
        except ValueError:
            raise Trouble(f"{self.path} line {line_of(data, place, k)}: {word[:40]} is no number") from None

    def table(self, element):
        lists = [it for it in element.properties if it[2]]
        if not lists:
            rows = self.rows(element, len(element.properties))
            return {it[0]: rows[:, k].astype(it[1], casting="unsafe") if it[1][0] != "f" else rows[:, k] for k, it in enumerate(element.properties)}
        plain = self.plain(element)
        return plain if plain is not None else self.row_by_row(element)

    def rows(self, element, width):
        there = len(self.numbers) - self.place
        if there < width * element.count:
            raise self.cut(element, there // max(1, width))
        rows = self.numbers[self.place : self.place + width * element.count].reshape(element.count, width)
        self.place += width * element.count
        return rows

    def plain(self, element):
        """All rows at once, where each list is as long as in the first row."""
        columns, width = [], 0
        for name, _, count in element.properties:
            if self.place + width >= len(self.numbers):
                return None
            length = self.numbers[self.place + width] if count else 1
            if not 0 <= length < 256:
                return None
            columns.append((name, count, width, int(length)))
            width += int(length) + (1 if count else 0)
        if not width or len(self.numbers) - self.place < width * element.count:
            return None
        rows = self.numbers[self.place : self.place + width * element.count].reshape(element.count, width)
        table = {}
        for name, count, start, length in columns:
            if count:
                if (rows[:, start] != length).any():
                    return None
                table[name] = (np.full(element.count, length), whole(rows[:, start + 1 : start + 1 + length].ravel()))
            else:
                table[name] = rows[:, start]
        self.place += width * element.count
        return table

    def row_by_row(self, element):
        made = {name: ([], []) if count else [] for name, _, count in element.properties}
        place, numbers = self.place, self.numbers
        for number in range(element.count):
            for name, _, count in element.properties:
                if place >= len(numbers):
                    raise self.cut(element, number)
                if not count:
                    made[name].append(numbers[place])
                    place += 1
                    continue
                length = int(numbers[place]) if 0 <= numbers[place] < 1 << 24 else 1 << 24
                if place + 1 + length > len(numbers):
                    raise self.cut(element, number)
                made[name][0].append(length)
                made[name][1].append(numbers[place + 1 : place + 1 + length])
                place += 1 + length
        self.place = place
        joined = lambda parts: whole(np.concatenate(parts)) if parts else np.zeros(0, np.int64)
        return {name: (np.array(it[0], np.int64), joined(it[1])) if isinstance(it, tuple) else np.array(it) for name, it in made.items()}


def line_of(data, place, number):
    """The line of a word of the body, counted from 1."""
    end = b"\n" if b"\n" in data else b"\r"
    for line, text in enumerate(data[place:].split(end), data[:place].count(end) + 1):
        number -= len(text.split())
        if number < 0:
            return line
    return line


def whole(numbers):
    """Numbers of a text as indices; what is no whole number of 32 bits is no index."""
    good = np.isfinite(numbers) & (np.abs(numbers) < 2.0**31) & (np.floor(numbers) == numbers)
    return np.where(good, numbers, -1).astype(np.int64)


def heads_kept(path, table, comments):
    """The attributes of a text that has heads, or None."""
    heads, names = [], list(table)
    if not any(it[:1] == ["attr"] for it in comments) or any(table[name].dtype.kind == "f" and not _is_whole(table[name]) for name in names):
        return None
    try:
        for words in comments:
            if words[0] == "attr":
                heads.append(Head(*map(int, words[2:7])))
            elif words[0] == "octa":
                heads[int(words[1])].octa = int(words[2])
            elif words[0] == "quant":
                heads[int(words[1])].grid = Grid(int(words[2]), float_of(words[3]), np.array([float_of(it) for it in words[4:]], np.float32))
    except (ValueError, IndexError, TypeError):
        raise Trouble(f"{path}: a comment `drc {' '.join(words)[:60]}` breaks the rules of docs/PLY.md") from None
    if sum(it.comps for it in heads) != len(names) or any((it.dtype == QUANTISED) != it.has_floats for it in heads):
        raise Trouble(f"{path}: the comments `drc attr` don't fit the properties, by the rules of docs/PLY.md")
    made, column = [], 0
    for head in heads:
        values = np.stack([table[name] for name in names[column : column + head.comps]], axis=1)
        made.append(Attribute(head.usage, values.astype(np.int64), "", head))
        column += head.comps
    return made


def _is_whole(column):
    return bool((np.isfinite(column) & (np.floor(column) == column) & (np.abs(column) < 2.0**31)).all())


def attributes_of(path, element, table, notes):
    """The attributes by the names of the columns, positions first; a column of any other name is a generic attribute."""
    kinds, left, made = {it[0]: it[1] for it in element.properties}, [it[0] for it in element.properties], []
    lists = [it[0] for it in element.properties if it[2]]
    if lists:
        notes.append(f"lists of points left out: {', '.join(lists)}")
        left = [name for name in left if name not in lists]
    for usage, words in GROUPS:
        names = words.split()
        if all(name in left for name in names) and not any(it.usage == usage for it in made):
            made.append(attribute(usage, names, table, kinds))
            left = [name for name in left if name not in names]
    made += [attribute(GENERIC, [name], table, kinds) for name in left]
    if not made or made[0].usage != POSITION:
        raise Trouble(f"{path}: the points have no properties x, y, z")
    return made


def attribute(usage, names, table, kinds):
    columns = [table[name] for name in names]
    name = names[0] if usage == GENERIC else ""
    types = [kinds[it] for it in names]
    if any(kind[0] == "f" for kind in types):
        values = np.stack(columns, axis=1).astype(np.result_type(*(it.dtype for it in columns), np.float32))
        if usage == COLOUR:
            return Attribute(usage, colour_bytes(values), name)
        return Attribute(usage, values, name)
    widest = np.result_type(*types)
    if widest.itemsize > 4 or widest.name not in TYPE_OF:
        widest = np.dtype(np.int32)
    return Attribute(usage, np.stack(columns, axis=1).astype(widest), name)
