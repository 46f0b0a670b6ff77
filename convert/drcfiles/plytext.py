"""The PLY texts that `drc enc` reads and `drc dec` writes (docs/PLY.md): heads with their grids, rows of integers, triangles."""
import re
from dataclasses import dataclass, field

import numpy as np

from .grids import FLOAT, Grid, to_doubles, to_floats, unit_vectors
from .trouble import Trouble

POSITION, NORMAL, COLOUR, TEXTURE, GENERIC = range(5)
QUANTISED = 9
TYPES = {1: "char", 2: "uchar", 3: "short", 4: "ushort", 5: "int", 6: "uint", QUANTISED: "int"}
TYPE_OF = {"int8": 1, "uint8": 2, "int16": 3, "uint16": 4, "int32": 5, "uint32": 6}  # by the names of numpy
ARRAYS = {1: np.int8, 2: np.uint8, 3: np.int16, 4: np.uint16, 5: np.int32, 6: np.uint32, QUANTISED: np.int32}
NAMES = {(POSITION, 3): "x y z", (NORMAL, 3): "nx ny nz", (COLOUR, 3): "red green blue", (COLOUR, 4): "red green blue alpha", (TEXTURE, 2): "s t"}
ROWS_AT_ONCE = 1 << 16


@dataclass
class Head:
    """What an attribute is: usage (0 to 4), data type (1 to 6, or 9 for floats), components, flag and id. Floats have a grid where they are quantised,
    and `octa`, the bits of both coordinates, where they are octahedral normals, which have two components."""

    usage: int
    dtype: int
    comps: int
    normalized: int = 0
    id: int = 0
    grid: Grid = None
    octa: int = None

    @property
    def wide(self):
        """How many numbers a value is where it isn't coded: three of an octahedral normal, else the components."""
        return 3 if self.octa else self.comps

    @property
    def has_floats(self):
        """Whether the integers stand for floats."""
        return self.grid is not None or self.octa is not None


@dataclass
class Geometry:
    """Heads, for each head a table of integers with a row for each point, and the faces as a table of three columns (None: a cloud)."""

    heads: list
    values: list
    faces: np.ndarray = None
    points: int = field(init=False)

    def __post_init__(self):
        self.points = len(self.values[0]) if self.values else 0

    def floats(self, k):
        """The values of head k: floats of 32 bits by its grid, unit vectors of octahedral normals, or the integers as they are."""
        head = self.heads[k]
        if head.octa:
            return unit_vectors(self.values[k], head.octa)
        return to_floats(self.values[k], head.grid) if head.grid else self.values[k]

    def numbers(self, k):
        """The values of head k as the stream says them: doubles where floats of 32 bits can't tell the steps of its grid, else `floats`."""
        grid = self.heads[k].grid
        return to_doubles(self.values[k], grid) if grid and grid.is_fine else self.floats(k)

    def origin(self, k):
        """Where the values of head k are counted from so that floats of 32 bits tell its steps: the minimum of a fine grid, else None."""
        grid = self.heads[k].grid
        return grid.minimum.astype(np.float64) if grid and grid.is_fine else None

    def from_origin(self, k):
        """The values of head k in floats of 32 bits, counted from its origin where it has one."""
        origin = self.origin(k)
        return self.floats(k) if origin is None else (self.numbers(k) - origin).astype(FLOAT)

    def first(self, usage):
        """The number of the first head of this usage, or None."""
        return next((k for k, head in enumerate(self.heads) if head.usage == usage), None)


def bits_of(value):
    """The pattern of a float of 32 bits, in eight hexadecimal digits."""
    return f"{int(np.asarray(value, FLOAT).view(np.uint32)):08x}"


def float_of(word):
    return np.array(int(word, 16), np.uint32).view(FLOAT)[()]


def names_of(heads, of_floats=False):
    """The names of the columns: those of the format for the first head of each usage, `a<k>_<j>` for any other component. Octahedral integers have the
    latter and are no first head; the floats that they stand for are named like others."""
    taken, names = set(), []
    for k, head in enumerate(heads):
        wide = head.wide if of_floats else head.comps
        given = NAMES.get((head.usage, wide)) if of_floats or not head.octa else None
        if given and head.usage not in taken:
            taken.add(head.usage)
            names.append(given.split())
        else:
            names.append([f"a{k}_{j}" for j in range(wide)])
    return names


def lines_of(table, before=""):
    """The rows of a table of integers as lines."""
    line = before + " ".join(["%d"] * table.shape[1]) + "\n"
    for start in range(0, len(table), ROWS_AT_ONCE):
        part = table[start : start + ROWS_AT_ONCE]
        yield (line * len(part) % tuple(part.ravel().tolist())).encode()


def write_text(geometry, comments=()):
    """The text of a geometry, as bytes, with further comments, each a line."""
    head = ["ply", "format ascii 1.0", *(f"comment {' '.join(it.split())}" for it in comments)]
    for k, it in enumerate(geometry.heads):
        head.append(f"comment drc attr {k} {it.usage} {it.dtype} {it.comps} {it.normalized} {it.id}")
        if it.grid:
            head.append(f"comment drc quant {k} {it.grid.bits} {bits_of(it.grid.range)} {' '.join(map(bits_of, it.grid.minimum))}")
        if it.octa:
            head.append(f"comment drc octa {k} {it.octa}")
    head.append(f"element vertex {geometry.points}")
    for it, names in zip(geometry.heads, names_of(geometry.heads)):
        head += [f"property {TYPES[it.dtype]} {name}" for name in names]
    if geometry.faces is not None:
        head += [f"element face {len(geometry.faces)}", "property list uchar int vertex_indices"]
    parts = [("\n".join(head) + "\nend_header\n").encode()]
    rows = np.concatenate([np.asarray(it, np.int64).reshape(geometry.points, -1) for it in geometry.values], axis=1)
    parts += lines_of(rows)
    if geometry.faces is not None:
        parts += lines_of(np.asarray(geometry.faces, np.int64), "3 ")
    return b"".join(parts)


def read_text(text):
    """The geometry of a text that `drc dec` wrote: each head has its line."""
    head, mark, body = text.partition(b"end_header\n")
    if not mark:
        raise Trouble("the text of `drc dec` has no end_header")
    lines = head.decode("ascii", "replace").splitlines()
    heads, points, faces = [], 0, None
    for line in lines:
        words = line.split()
        if re.match(r"comment drc attr ", line):
            heads.append(Head(*map(int, words[4:9])))
        elif re.match(r"comment drc quant ", line):
            heads[int(words[3])].grid = Grid(int(words[4]), float_of(words[5]), np.array([float_of(it) for it in words[6:]], FLOAT))
        elif re.match(r"comment drc octa ", line):
            heads[int(words[3])].octa = int(words[4])
        elif words[:2] == ["element", "vertex"]:
            points = int(words[2])
        elif words[:2] == ["element", "face"]:
            faces = int(words[2])
    numbers = np.fromstring(body.decode("ascii"), dtype=np.int64, sep=" ")
    wide = sum(it.comps for it in heads)
    rows = numbers[: points * wide].reshape(points, wide)
    values, column = [], 0
    for it in heads:
        values.append(rows[:, column : column + it.comps].astype(ARRAYS[it.dtype]))
        column += it.comps
    table = None if faces is None else numbers[points * wide :].reshape(faces, 4)[:, 1:].astype(np.int64)
    return Geometry(heads, values, table)
