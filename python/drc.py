"""The codec for .drc files, compressed triangle meshes and point clouds (Draco Bitstream Specification 2.2),
by the C library libdrc.

    import drc

    mesh = drc.decode(open("bunny.drc", "rb").read())
    mesh.faces                       # (F, 3) uint32: the points of each face; None for a cloud
    mesh.attributes[0].values        # (N, C): the integers of each point, as the stream has them
    mesh.attribute("position")       # the attribute of this usage
    mesh.attributes[0].floats()      # (N, C) float32: what the integers stand for
    stream, renumbering = drc.encode(mesh, method="valence")
    drc.decode(data, profile=3)      # with octahedral normals, as Google's draco writes them
    drc.encode(mesh, predict="shape", profile=3)    # normals and texture coordinates predicted from positions

decode        bytes to a Geometry
declared      what the bytes of a stream declare, before they are decoded
info          the report of a stream
encode        a Geometry to bytes, and the Renumbering of its faces or points
recode        a stream coded in another way
restore       a stream with its faces in the order that they had before they were encoded
verify        whether a stream is a Geometry by a Renumbering, as a Verdict
version       the version of the library's interface
Geometry      faces and attributes
Attribute     the integers of each point, and what they are; Attribute.quantised makes one of floats
Quantisation  how integers stand for floats
Renumbering   which face of what was encoded each face of a stream is
Declared      what declared answers
Verdict       what verify answers
Refused       what is raised where bytes or arrays have a fault: its kind and its place

A stream is read and written in a profile, 2 where no other is named. In profile 3 it may have octahedral normals, and normals and
texture coordinates that are predicted from positions, which are refused in profile 2. What is read in 2 means the same in 3.

All arrays are numpy's and own their memory. Calls may be made on any number of threads: nothing is kept
between them, and other threads run while the library works. What a call reads may not be changed meanwhile.

The library is looked for at the first call: the file that the environment variable DRC_LIBRARY names; else
libdrc.so beside this file; else what ./build-library put into the folder out/ of the repository; else where
the system's loader looks for libdrc.so.2. ImportError is raised where it isn't found, or is of an earlier version.

Beside Refused a call may raise MemoryError, and TypeError or ValueError for arguments that are none. What only a later library has
comes by its number: a type of values, a usage, a verdict.
"""
import ctypes
import functools
import mmap
import operator
import os
import pathlib
import re
from dataclasses import dataclass
from typing import Dict, List, Optional, Tuple, Union

import numpy as np

__all__ = ["decode", "declared", "info", "encode", "recode", "restore", "verify", "version"]
__all__ += ["Attribute", "Declared", "Geometry", "Quantisation", "Refused", "Renumbering", "Verdict"]
__all__ += ["POSITION", "NORMAL", "COLOUR", "TEXTURE", "GENERIC"]

POSITION, NORMAL, COLOUR, TEXTURE, GENERIC = range(5)
_PROFILES = (2, 3)
_USAGES = ("position", "normal", "colour", "texture", "generic")
_Bytes = Union[bytes, bytearray, memoryview, mmap.mmap, np.ndarray]


class Refused(ValueError):
    """What is raised where a stream, or arrays to be encoded, have a fault. It is the first one. Its text says what it means, where
    its number points and what helps, by the tables of docs/FAULTS.md, where that page is found; else it is the note.

    kind    its word, such as 'Short'
    at      where it is: for a stream a number of bytes, for arrays the number of a face or value or attribute,
            or what else the kind says
    """

    def __init__(self, kind: str, at: int) -> None:
        super().__init__(kind, at)
        self.kind, self.at = kind, at

    @property
    def note(self) -> str:
        """What the program says of it: 'refused Short 20'."""
        return f"refused {self.kind} {self.at}"

    def __str__(self) -> str:
        if self.kind not in _faults():
            return self.note
        means, number, helps = _faults()[self.kind]
        return f"{self.note}: {means} (the number is {number}); what helps: {helps}".replace("`", "")


@functools.lru_cache(maxsize=None)
def _faults() -> Dict[str, Tuple[str, str, str]]:
    """Of each kind what it means, where its number points and what helps. The page stands beside this file where ./install put it, and
    in docs/ in the repository."""
    folder = pathlib.Path(__file__).resolve().parent
    page = next((it for it in (folder / "FAULTS.md", folder.parent / "docs" / "FAULTS.md") if it.is_file()), None)
    if page is None:
        return {}
    lines = page.read_text(encoding="utf-8").splitlines()
    rows = (line.strip("|").split(" | ") for line in lines if re.match(r"\| `\w+` \|", line))
    return {word.strip(" `"): (means.strip(), number.strip(), helps.strip()) for word, means, number, helps in rows}


@dataclass(eq=False)
class Quantisation:
    """How integers stand for floats: integer i of component j stands for minima[j] + i * range / (2^bits - 1).

    bits      1 to 30
    range     a float32
    minima    (C,) float32, one for each component
    """

    bits: int
    range: np.float32
    minima: np.ndarray


@dataclass(eq=False)
class Attribute:
    """What each point has of one kind: a position, a colour, a label.

    values          (N, C) integers: int8, uint8, int16, uint16, int32 or uint32 (up to 2^31 - 1), and int32 where
                    they are quantised or octahedral; C is 1 to 8. Integers of 64 bits, which numpy makes of lists, are
                    taken as int32 where all of them fit
    usage           POSITION, NORMAL, COLOUR, TEXTURE or GENERIC
    id              the attribute's own number, carried as it is
    normalized      carried as it is; 1 says that integers stand for fractions of the greatest of their type
    quantisation    a Quantisation where the integers stand for floats on a grid, else None
    octahedral_bits 2 to 30 where the integers stand for unit vectors: C is 2, and both are 0 to 2^octahedral_bits - 2,
                    coordinates in the square of the unfolded octahedron; else 0. Only a stream of profile 3 has such
    other_type      the number of a data type that only a later library has, whose values are int32 here; else None
    """

    values: np.ndarray
    usage: int = POSITION
    id: int = 0
    normalized: int = 0
    quantisation: Optional[Quantisation] = None
    octahedral_bits: int = 0
    other_type: Optional[int] = None

    @property
    def name(self) -> str:
        """The word of the usage: 'position', 'normal', 'colour', 'texture' or 'generic'; of another number the number."""
        return _USAGES[self.usage] if self.usage in range(len(_USAGES)) else str(self.usage)

    @property
    def components(self) -> int:
        """How many integers a point has."""
        return self.values.shape[1]

    @property
    def type(self) -> str:
        """The word of the data type that a stream declares: that of the values, 'float32' where they are quantised or octahedral; of
        another type the number."""
        if self.other_type is not None:
            return str(self.other_type)
        return "float32" if self.quantisation or self.octahedral_bits else _declared(np.asarray(self.values).dtype).name

    def floats(self) -> np.ndarray:
        """What the integers stand for, (N, C) float32.

        Where they are quantised: steps of their grid, computed in 32 bits as `draco_decoder` does. Where they are octahedral: unit
        vectors, (N, 3), computed as it does. Others stand for themselves, and divided by the greatest of their type where they are
        normalized."""
        values = np.asarray(self.values)
        floats = values.astype(np.float32)
        if self.quantisation:
            with np.errstate(all="ignore"):
                return floats * _step(self.quantisation) + np.asarray(self.quantisation.minima, np.float32)
        if self.octahedral_bits:
            return _unit_vectors(floats, self.octahedral_bits)
        return floats / np.float32(np.iinfo(_declared(values.dtype)).max) if self.normalized else floats

    @classmethod
    def quantised(cls, floats: np.ndarray, bits: int, usage: int = POSITION, id: int = 0) -> "Attribute":
        """An attribute of floats, (N, C), on a grid of 2^bits numbers, as `draco_encoder` makes it: from the least of each
        component on, and as wide as the widest component. Each float is taken to the nearest number, so it moves by
        half of range / (2^bits - 1) at most, and by what floats of 32 bits round.

        ValueError where bits aren't 1 to 30, or a float or their extent isn't finite."""
        floats = _table(floats, np.float32)
        grid = _grid(floats, bits)
        inverse = np.float32((1 << bits) - 1) / grid.range
        numbers = np.floor((floats - grid.minima) * inverse + np.float32(0.5))
        return cls(numbers.astype(np.int64).astype(np.int32), usage, id, 0, grid)

    def __repr__(self) -> str:
        grid, square = self.quantisation, self.octahedral_bits
        bits = f" in {grid.bits} bits" if grid else f" in an octahedron of {square} bits" if square else ""
        return f"<Attribute {self.name}: {len(self.values)} points of {self.components} {self.type}{bits}, id {self.id}>"


@dataclass(eq=False)
class Geometry:
    """A mesh or a cloud of points.

    faces         (F, 3) uint32, the numbers of the points of each face; None for a cloud
    attributes    a list of Attribute, each with a row for each point
    """

    faces: Optional[np.ndarray]
    attributes: List[Attribute]

    @property
    def points(self) -> int:
        """How many points there are."""
        return len(self.attributes[0].values) if self.attributes else 0

    def attribute(self, name: str) -> Attribute:
        """The first attribute of a usage: 'position', 'normal', 'colour', 'texture' or 'generic'. KeyError where there is none."""
        for it in self.attributes:
            if it.name == name:
                return it
        raise KeyError(name)

    def __repr__(self) -> str:
        what = "cloud of" if self.faces is None else f"mesh of {len(self.faces)} faces and"
        return f"<Geometry: {what} {self.points} points with {', '.join(it.name for it in self.attributes)}>"


@dataclass(eq=False)
class Renumbering:
    """Which face of what was encoded each face of the stream is, and how it is turned; for a cloud the same of points.

    of_mesh    True for a mesh, False for a cloud
    rows       (R, 2) uint32. Of a mesh: corner k of face i of the stream is corner k + rows[i, 1], modulo 3, of
               face rows[i, 0] of what was encoded. Of a cloud: point i is point rows[i, 0], and rows[i, 1] is 0

    What is kept for each face beside a mesh comes into the order of the stream by `kept[renumbering.rows[:, 0]]`.
    """

    of_mesh: bool
    rows: np.ndarray

    def corners(self) -> np.ndarray:
        """Of a mesh: (R, 3) int64, which corner of what was encoded each corner of the stream is, where corner k of face f has
        the number 3 * f + k. So `mesh.faces.ravel()[renumbering.corners()]` has the faces that were encoded, in the order
        of the stream, and with the numbers of points that they had."""
        rows = self.rows.astype(np.int64)
        return 3 * rows[:, :1] + (rows[:, 1:] + np.arange(3)) % 3

    def text(self) -> bytes:
        """The bytes that `drc enc` notes of it, which `drc verify` and `drc recode --restore` read."""
        return b"map %s %d\n" % (b"mesh" if self.of_mesh else b"cloud", len(self.rows)) + _lines_of(np.asarray(self.rows))

    @classmethod
    def of_text(cls, text: bytes) -> "Renumbering":
        """The renumbering that such bytes state, and nothing else: Refused where the program refuses them, as it does, `MapForm` at
        the first line that isn't one, from 1, and `FaceLimit` or `PointLimit` at 1 where there are too many rows. So is `MapForm` at what
        follows the last row."""
        text = memoryview(text).tobytes()
        found = re.match(rb"map (mesh|cloud) (0|[1-9]\d{0,9})\n", text)
        if not found or int(found[2]) >> 32:
            raise Refused("MapForm", 1)
        of_mesh, count = found[1] == b"mesh", int(found[2])
        if count > _MOST_ROWS:
            raise Refused("FaceLimit" if of_mesh else "PointLimit", 1)
        rows = _rows_of(np.frombuffer(text, np.uint8)[found.end() :], count)
        if rows is None:
            raise Refused("MapForm", 2 + _whole_lines(text[found.end() :], count))
        return cls(of_mesh, rows)


@dataclass(frozen=True)
class Declared:
    """What a stream declares before its data.

    of_mesh    True for a mesh, False for a cloud
    faces      how many faces it has; 0 of a cloud
    points     how many points it has; of a mesh by Edgebreaker how many vertices, of which seams make more points
    """

    of_mesh: bool
    faces: int
    points: int


@dataclass(frozen=True)
class Verdict:
    """What verify answers. It is true, as in `if drc.verify(..)`, where the stream is the geometry.

    kind    'same'; else, where no later library has another, the first that applies of
            'heads': the attributes differ in what they are, or stream, geometry and renumbering aren't all of meshes or all of clouds
            'rows': stream, geometry and renumbering haven't as many faces (points of clouds)
            'row': a row of the renumbering is wrong: it names no face or one that an earlier row names, its turn can't be, or a corner
            has other integers
            'pair': a side is glued otherwise, or is free in one of the two alone
    at      for 'rows' how many the renumbering has; for 'row' the first wrong row; for 'pair' the first side, 3 * face + k, of the
            stream; else 0
    """

    kind: str
    at: int

    def __bool__(self) -> bool:
        return self.kind == "same"

    def __str__(self) -> str:
        return "same" if self else f"not same {self.kind} {self.at}"


def version() -> int:
    """The version of the library's interface."""
    return _library().drc_version()


def declared(data: _Bytes, profile: int = 2) -> Declared:
    """What the bytes of a stream declare, before they are decoded: this takes no memory and no time. Refused has the first fault of the
    header or of the declared numbers, which is the stream's first."""
    library, shape, fault, profile = _library(), _Shape(), _Fault(), _profile(profile)
    data = np.frombuffer(data, np.uint8)
    _check(library.drc_declared(data.ctypes.data, data.size, profile, ctypes.byref(shape), ctypes.byref(fault)), fault)
    return Declared(bool(shape.mesh), shape.faces, shape.points)


def info(data: _Bytes, profile: int = 2) -> str:
    """The report of a stream, as `drc info` writes it: its form, where its parts stand, how many things it has, and its attributes."""
    library, text, fault, profile = _library(), _Text(), _Fault(), _profile(profile)
    data = np.frombuffer(data, np.uint8)
    _check(library.drc_info(data.ctypes.data, data.size, profile, ctypes.byref(text), ctypes.byref(fault)), fault)
    try:
        return ctypes.string_at(text.bytes, text.length).decode()
    finally:
        library.free(text.bytes)


def decode(
    data: _Bytes,
    profile: int = 2,
    *,
    most_faces: Optional[int] = None,
    most_points: Optional[int] = None,
    most_values: Optional[int] = None,
) -> Geometry:
    """The Geometry that the bytes of a stream mean: exactly that, or Refused with their first fault, as `drc dec` says it; but
    streams of any length are read, here and by the other calls.

    `profile` is 2 or 3, here and in the other calls, and ValueError is raised where it is neither. In 3 a stream may have
    octahedral normals, and normals and texture coordinates that are predicted from positions, as Google's draco writes them.

    `data` is anything that has a buffer of bytes: bytes, bytearray, memoryview, mmap, an array of uint8. Bytes after the
    stream's end are ignored. Points, faces and attributes have the order of `drc dec`.

    `most_faces`, `most_points` and `most_values` are limits of the caller, 1 or more; values are the integers of all points. Refused is
    raised with `FaceLimit`, `PointLimit` or `ValueLimit` at the number that is too great: by the numbers that the stream declares before
    memory is taken, and by those of its geometry once it is decoded."""
    library, geometry, fault, profile = _library(), _Geometry(), _Fault(), _profile(profile)
    limits = _Limits(_limit("most_faces", most_faces), _limit("most_points", most_points), _limit("most_values", most_values))
    data = np.frombuffer(data, np.uint8)
    parts = (data.ctypes.data, data.size, profile, ctypes.byref(limits))
    status = library.drc_decode_within(*parts, ctypes.byref(geometry), ctypes.byref(fault))
    _check(status, fault)
    try:
        return _geometry_of(geometry)
    finally:
        library.free(geometry.corners)
        library.free(geometry.values)


def encode(
    geometry: Geometry,
    *,
    method: Optional[str] = None,
    index: Optional[str] = None,
    predict: Optional[str] = None,
    walk: Optional[str] = None,
    plain_values: bool = False,
    profile: int = 2,
) -> Tuple[bytes, Renumbering]:
    """The stream of a Geometry, as bytes, and its Renumbering; or Refused with the first fault of the arrays, then of the
    encoding, as `drc enc` says it.

    The options are those of `drc enc`, and what isn't chosen is as there:

    method          'seq', 'eb' or 'valence'; a mesh is coded by 'eb' where nothing is chosen, a cloud by 'seq'
    index           'plain' or 'packed' indices, of a mesh by 'seq' alone
    predict         'none', 'diff', 'para' or 'multi': how values are predicted; in profile 3 also 'shape', from positions: octahedral
                    attributes by normals of faces, texture coordinates by a projection, all others by a parallelogram
    walk            'depth' or 'degree': the order of values, not by 'seq'
    plain_values    True: values as they are, and not in symbol blocks
    profile         2 or 3: that in which the stream is read again. In profile 2 octahedral attributes are refused, `Octahedral` at the
                    number of the first

    Faces may be of any type of integers; a number that is no point is refused, `IndexRange` at its face. TypeError where values
    aren't of the types that Attribute names, ValueError where integers of 64 bits don't fit 32."""
    options = _options(method, index, predict, walk, plain_values, profile)
    heads, values, corners = _heads(geometry.attributes), _values(geometry.attributes), _corners(geometry)
    library, stream, fault, of_mesh = _library(), _Stream(), _Fault(), geometry.faces is not None
    parts = (heads, len(heads), corners.ctypes.data, len(corners), values.ctypes.data, values.size)
    status = library.drc_encode(of_mesh, *parts, ctypes.byref(options), ctypes.byref(stream), ctypes.byref(fault))
    _check(status, fault)
    return _taken(library, stream, of_mesh)


def recode(
    data: _Bytes,
    *,
    method: Optional[str] = None,
    index: Optional[str] = None,
    predict: Optional[str] = None,
    walk: Optional[str] = None,
    plain_values: bool = False,
    profile: int = 2,
) -> Tuple[bytes, Renumbering]:
    """The bytes of a stream that means the geometry of the stream `data`, coded as chosen by the options of encode, and the
    Renumbering from the new stream to the old one; or Refused with the first fault of the old stream, else of the encoding.
    The old stream is read in the profile too."""
    options = _options(method, index, predict, walk, plain_values, profile)
    library, stream, fault, data = _library(), _Stream(), _Fault(), np.frombuffer(data, np.uint8)
    status = library.drc_recode(data.ctypes.data, data.size, ctypes.byref(options), ctypes.byref(stream), ctypes.byref(fault))
    _check(status, fault)
    return _taken(library, stream, bool(data[_KIND_PLACE] == _MESH))


def restore(data: _Bytes, renumbering: Renumbering, *, profile: int = 2) -> bytes:
    """The bytes of a sequential stream that has the faces (of a cloud the points) of the stream `data` in the order that they had
    before they were encoded, each face beginning with its first corner; the renumbering is the one that came with `data`.

    Refused has the first fault of the stream, then of the renumbering (`MapKind`, `MapCount`, `BadMap` at its row), then of the
    encoding. The points of a mesh keep the numbers that they have in `data`."""
    library, stream, fault, data = _library(), _Stream(), _Fault(), np.frombuffer(data, np.uint8)
    rows = _numbers("rows", renumbering.rows, 2)
    parts = (rows.ctypes.data, len(rows), data.ctypes.data, data.size, _profile(profile))
    status = library.drc_restore(bool(renumbering.of_mesh), *parts, ctypes.byref(stream), ctypes.byref(fault))
    _check(status, fault)
    return _taken(library, stream, renumbering.of_mesh)[0]


def verify(data: _Bytes, geometry: Geometry, renumbering: Renumbering, *, surface: bool = False, profile: int = 2) -> Verdict:
    """A Verdict: whether the stream `data` means a Geometry by a Renumbering, with the same integers in the same corners and the same
    attributes; with `surface` also whether sides are glued in it as in that mesh. Of what encoding uses it uses, with `surface`, how a mesh is
    paired and how pairs are renumbered, and nothing else.

    Refused has the first fault of the arrays, then of the stream, then with `surface` why there is no surface to compare."""
    library, verdict, fault, data = _library(), _Verdict(), _Fault(), np.frombuffer(data, np.uint8)
    heads, values, corners = _heads(geometry.attributes), _values(geometry.attributes), _corners(geometry)
    rows, of_mesh = _numbers("rows", renumbering.rows, 2), geometry.faces is not None
    arrays = (heads, len(heads), corners.ctypes.data, len(corners), values.ctypes.data, values.size, rows.ctypes.data, len(rows))
    stream = (data.ctypes.data, data.size, _profile(profile), bool(surface))
    status = library.drc_verify(of_mesh, *arrays, *stream, ctypes.byref(verdict), ctypes.byref(fault))
    if status != _NOT_SAME:
        _check(status, fault)
    return Verdict(_verdict_word(verdict.kind), verdict.at) if bool(renumbering.of_mesh) == of_mesh else Verdict("heads", 0)


# The calls and structs of include/drc.h.


class _Head(ctypes.Structure):
    _fields_ = [
        ("usage", ctypes.c_uint8),
        ("dtype", ctypes.c_uint8),
        ("comps", ctypes.c_uint8),
        ("normalized", ctypes.c_uint8),
        ("id", ctypes.c_uint32),
        ("bits", ctypes.c_uint8),
        ("octahedral_bits", ctypes.c_uint8),
        ("spare", ctypes.c_uint16),
        ("range", ctypes.c_uint32),
        ("min", ctypes.c_uint32 * 8),
    ]


class _Shape(ctypes.Structure):
    _fields_ = [(name, ctypes.c_uint32) for name in ("mesh", "faces", "points", "width", "attributes")] + [("heads", _Head * 16)]


class _Geometry(ctypes.Structure):
    _fields_ = [("shape", _Shape), ("corners", ctypes.c_void_p), ("values", ctypes.c_void_p)]


class _Limits(ctypes.Structure):
    _fields_ = [(name, ctypes.c_uint32) for name in ("faces", "points", "values", "spare")]


class _Text(ctypes.Structure):
    _fields_ = [("length", ctypes.c_size_t), ("bytes", ctypes.c_void_p)]


class _Fault(ctypes.Structure):
    _fields_ = [("kind", ctypes.c_uint32), ("at", ctypes.c_uint64)]


class _Options(ctypes.Structure):
    _fields_ = [(name, ctypes.c_uint32) for name in ("method", "index", "predict", "walk", "plain_values", "profile")]
    _fields_ += [("spare", ctypes.c_uint32 * 2)]


class _Lengths(ctypes.Structure):
    _fields_ = [("bytes", ctypes.c_size_t), ("rows", ctypes.c_size_t)]


class _Stream(ctypes.Structure):
    _fields_ = [("lengths", _Lengths), ("bytes", ctypes.c_void_p), ("rows", ctypes.c_void_p)]


class _Verdict(ctypes.Structure):
    _fields_ = [("kind", ctypes.c_uint32), ("at", ctypes.c_uint64)]


_SIZE, _POINTER, _NUMBER = ctypes.c_size_t, ctypes.c_void_p, ctypes.c_uint32
_ARRAY = [_POINTER, _SIZE]
_CALLS = {
    "drc_version": [],
    "drc_fault_name": [_NUMBER, ctypes.c_char_p, _SIZE],
    "drc_declared": [*_ARRAY, _NUMBER, _POINTER, _POINTER],
    "drc_decode_within": [*_ARRAY, _NUMBER, _POINTER, _POINTER, _POINTER],
    "drc_info": [*_ARRAY, _NUMBER, _POINTER, _POINTER],
    "drc_encode": [_NUMBER, *_ARRAY, *_ARRAY, *_ARRAY, _POINTER, _POINTER, _POINTER],
    "drc_recode": [*_ARRAY, _POINTER, _POINTER, _POINTER],
    "drc_restore": [_NUMBER, *_ARRAY, *_ARRAY, _NUMBER, _POINTER, _POINTER],
    "drc_verify": [_NUMBER, *_ARRAY, *_ARRAY, *_ARRAY, *_ARRAY, *_ARRAY, _NUMBER, _NUMBER, _POINTER, _POINTER],
}
_VERSION = 3
_NAME_ROOM = 32
_DONE, _REFUSED, _NO_MEMORY, _NOT_SAME, _NO_ROOM = 0, 2, 5, 6, 8
_KIND_PLACE, _MESH = 7, 1  # the byte of a stream that says what it is, and that of a mesh
_VERDICTS = ("same", "heads", "rows", "row", "pair")
_WORDS = {
    "method": {"seq": 1, "eb": 2, "valence": 3},
    "index": {"plain": 1, "packed": 2},
    "predict": {"none": 1, "diff": 2, "para": 3, "multi": 4, "shape": 5},
    "walk": {"depth": 1, "degree": 2},
}
_FLOAT = 9  # floats, which are quantised or octahedral
_TYPES = {1: np.int8, 2: np.uint8, 3: np.int16, 4: np.uint16, 5: np.int32, 6: np.uint32}
_TYPE_NUMBERS = {np.dtype(kind): number for number, kind in _TYPES.items()}
_MOST_ROWS = 1 << 22  # of a renumbering's text: the limits on faces and points


def _place():
    """The file of the library, or the name by which the system's loader finds it."""
    named = os.environ.get("DRC_LIBRARY")
    if named:
        return named
    here = pathlib.Path(__file__).resolve().parent
    files = [folder / name for folder in (here, here.parent / "out/lib") for name in ("libdrc.so", "libdrc.so.2")]
    return next((str(it) for it in files if it.exists()), "libdrc.so.2")


@functools.lru_cache(maxsize=None)
def _library():
    """The library, with the types of its calls, and with `free`."""
    place = _place()
    try:
        library = ctypes.CDLL(place)
        library.drc_version.restype = _NUMBER
        if library.drc_version() < _VERSION:
            raise ImportError(f"{place} has version {library.drc_version()} of the interface: version {_VERSION} is wanted")
        for name, types in _CALLS.items():
            call = getattr(library, name)
            call.argtypes, call.restype = types, _NUMBER
    except (OSError, AttributeError) as why:
        raise ImportError(f"{why}: ./build-library makes libdrc.so, and the environment variable DRC_LIBRARY may name it") from why
    library.free = ctypes.CDLL(None).free
    library.free.argtypes, library.free.restype = [_POINTER], None
    return library


def _fault_name(kind):
    """The word of a kind of faults; of one that the library doesn't name its number."""
    room = _NAME_ROOM
    while True:
        name = ctypes.create_string_buffer(room)
        status = _library().drc_fault_name(kind, name, room)
        if status != _NO_ROOM:
            return name.value.decode() if status == _DONE else str(kind)
        room *= 2


def _verdict_word(kind):
    """The word of a verdict; of another one its number."""
    return _VERDICTS[kind] if kind < len(_VERDICTS) else str(kind)


def _check(status, fault):
    """Raises what a status says, unless it says that all is done."""
    if status == _REFUSED:
        raise Refused(_fault_name(fault.kind), fault.at)
    if status == _NO_MEMORY:
        raise MemoryError("libdrc is out of memory")
    if status != _DONE:
        raise ValueError(f"libdrc answers status {status}: the arguments don't fit each other")


# From the library's memory, all of which is copied and freed.


class _Memory:
    """A table in memory, which numpy reads by its array interface."""

    def __init__(self, address, shape, kind):
        self.__array_interface__ = {"version": 3, "data": (address, True), "shape": shape, "typestr": kind}


def _seen(address, shape, kind):
    """The table that lies there; NULL is one without items."""
    return np.asarray(_Memory(address, shape, kind)) if address else np.zeros(shape, kind)


def _geometry_of(geometry):
    shape = geometry.shape
    faces = _seen(geometry.corners, (shape.faces, 3), "<u4").copy() if shape.mesh else None
    table = _seen(geometry.values, (shape.points, shape.width), "<i4")
    attributes, begin = [], 0
    for head in shape.heads[: shape.attributes]:
        values = table[:, begin : begin + head.comps].astype(_TYPES.get(head.dtype, np.int32), order="C")
        attributes.append(Attribute(values, head.usage, head.id, head.normalized, *_meaning_of(head)))
        begin += head.comps
    return Geometry(faces, attributes)


def _meaning_of(head):
    """How the integers of an attribute stand for floats: its quantisation, its octahedral bits, and the number of a type that has no name here."""
    grid, square = _quantisation_of(head), head.octahedral_bits
    return grid, square, None if grid or square or head.dtype in _TYPES else head.dtype


def _quantisation_of(head):
    if head.dtype != _FLOAT or not head.bits:
        return None
    floats = np.array([head.range, *head.min[: head.comps]], np.uint32).view(np.float32)
    return Quantisation(head.bits, floats[0], floats[1:].copy())


def _taken(library, stream, of_mesh):
    """The bytes and the renumbering of a stream, which is freed."""
    try:
        rows = _seen(stream.rows, (stream.lengths.rows, 2), "<u4").copy()
        return ctypes.string_at(stream.bytes, stream.lengths.bytes), Renumbering(of_mesh, rows)
    finally:
        library.free(stream.bytes)
        library.free(stream.rows)


# To the library.


def _profile(number):
    """The number of a profile."""
    if operator.index(number) not in _PROFILES:
        raise ValueError(f"profile is {number}: {' or '.join(map(str, _PROFILES))} is wanted")
    return operator.index(number)


def _limit(what, number):
    """A limit of the caller as C has it, where 0 is none."""
    if number is None:
        return 0
    if operator.index(number) < 1:
        raise ValueError(f"{what} is {number}: it has to be 1 or more")
    return min(operator.index(number), (1 << 32) - 1)


def _options(method, index, predict, walk, plain_values, profile):
    chosen = {"method": method, "index": index, "predict": predict, "walk": walk}
    profile = _profile(profile)
    for option, word in chosen.items():
        if word is not None and word not in _WORDS[option]:
            raise ValueError(f"{option} is {word!r}: one of {', '.join(_WORDS[option])} is wanted")
    if predict == "shape" and profile == 2:
        raise ValueError("predict is 'shape': it is of profile 3, and the profile is 2")
    return _Options(*(_WORDS[option].get(word, 0) for option, word in chosen.items()), bool(plain_values), profile)


def _table(values, kind=None):
    """An attribute's values as a table."""
    table = np.asarray(values, kind)
    if table.ndim != 2:
        raise ValueError(f"values have the shape {table.shape}: a row for each point is wanted")
    return table


def _fits(what, number, bits):
    """A number of so many bits."""
    if not 0 <= operator.index(number) < 1 << bits:
        raise ValueError(f"{what} is {number}: it has to be below 2^{bits}")
    return operator.index(number)


def _declared(kind):
    """The type by which a stream declares values of a type of numpy: int32 for integers of 64 bits."""
    return np.dtype(np.int32) if kind.kind in "iu" and kind.itemsize == 8 else kind.newbyteorder("=")


def _typed(values):
    """An attribute's values as a table of the type that a stream declares."""
    table = _table(values)
    kind = _declared(table.dtype)
    if table.dtype.itemsize == 8 and table.dtype.kind in "iu" and table.size:
        bounds = np.iinfo(kind)
        if int(table.min()) < bounds.min or int(table.max()) > bounds.max:
            raise ValueError(f"values of {table.dtype} are taken where all fit {kind}; these are {table.min()} to {table.max()}")
    return table.astype(kind, copy=False)


def _heads(attributes):
    """What attributes are."""
    heads = (_Head * len(attributes))()
    for head, it in zip(heads, attributes):
        table = _table(it.values)
        head.dtype = _type_number(_declared(table.dtype), it)
        head.usage, head.comps = _fits("usage", it.usage, 8), _fits("the number of components", table.shape[1], 8)
        head.normalized, head.id = _fits("normalized", it.normalized, 8), _fits("id", it.id, 32)
        head.octahedral_bits = _fits("octahedral_bits", it.octahedral_bits, 8)
        if it.quantisation and it.octahedral_bits:
            raise ValueError("an attribute is quantised and octahedral: it has to be one of both at most")
        if it.quantisation:
            _put_quantisation(head, it.quantisation)
    return heads


def _type_number(kind, attribute):
    """The number of the data type that a stream declares of an attribute with values of this type."""
    number, of_floats = _TYPE_NUMBERS.get(kind), bool(attribute.quantisation or attribute.octahedral_bits)
    is_other = attribute.other_type is not None
    if number is None or (of_floats or is_other) and kind != np.int32:
        wanted = "int32" if of_floats or is_other else ", ".join(it.name for it in _TYPE_NUMBERS)
        raise TypeError(f"values are of {kind}: {wanted} is wanted")
    return _fits("other_type", attribute.other_type, 8) if is_other else _FLOAT if of_floats else number


def _put_quantisation(head, quantisation):
    minima = np.asarray(quantisation.minima, np.float32).ravel()
    if len(minima) != head.comps:
        raise ValueError(f"there are {len(minima)} minima of {head.comps} components")
    head.bits = _fits("bits", quantisation.bits, 8)
    head.range = int(np.asarray(quantisation.range, np.float32).view(np.uint32))
    for j, pattern in enumerate(minima.view(np.uint32)[: len(head.min)].tolist()):
        head.min[j] = pattern


def _values(attributes):
    """The integers of all points, point after point. What is 2^31 and more becomes negative, which uint32 has none of."""
    tables = [_typed(it.values).astype(np.int32) for it in attributes]
    if len({len(it) for it in tables}) > 1:
        raise ValueError(f"attributes have {', '.join(str(len(it)) for it in tables)} rows: each has to have one for each point")
    return np.ascontiguousarray(np.concatenate(tables, axis=1)) if tables else np.zeros((0, 0), np.int32)


def _corners(geometry):
    """The numbers of the points of each face; a cloud has none."""
    return np.zeros((0, 3), np.uint32) if geometry.faces is None else _numbers("faces", geometry.faces, 3)


def _numbers(what, table, columns):
    """A table of numbers of points or faces. What 32 bits don't hold becomes the greatest that they hold, which is none."""
    table = np.asarray(table)
    if table.ndim != 2 or table.shape[1] != columns:
        raise ValueError(f"{what} have the shape {table.shape}: {columns} numbers each are wanted")
    if table.dtype.kind not in "iu":
        raise TypeError(f"{what} are of {table.dtype}: integers are wanted")
    if np.can_cast(table.dtype, np.uint32):
        return table.astype(np.uint32, order="C")
    wide = table.astype(np.int64 if table.dtype.kind == "i" else np.uint64)
    greatest = wide.dtype.type(np.iinfo(np.uint32).max)
    kept = wide.astype(np.uint32, order="C")
    kept[(wide < wide.dtype.type(0)) | (wide > greatest)] = np.uint32(greatest)
    return kept


# The text of a renumbering. Of two million rows all is done by columns, since a loop over the rows would take seconds.


def _lines_of(rows):
    """The line of each row: its number, a space, its turn."""
    if not len(rows):
        return b""
    numbers, turns = rows[:, 0], rows[:, 1]
    if int(rows.min()) < 0 or int(numbers.max()) >> 32 or int(turns.max()) > 9:  # no renumbering, and printed as it is
        return "".join(f"{number} {turn}\n" for number, turn in rows.tolist()).encode()
    width = len(str(int(numbers.max())))
    left, lines = numbers.astype(np.uint32), np.empty((len(rows), width + 3), np.uint8)
    is_kept = np.ones(lines.shape, bool)
    for k in reversed(range(width)):
        if k < width - 1:
            is_kept[:, k] = left != 0
        left, digit = np.divmod(left, np.uint32(10))
        lines[:, k] = digit + np.uint32(ord("0"))
    lines[:, width], lines[:, width + 1], lines[:, width + 2] = ord(" "), turns + turns.dtype.type(ord("0")), ord("\n")
    return lines[is_kept].tobytes()


def _rows_of(text, count):
    """The rows of so many lines and no more, an array of bytes; None where a line is none."""
    marks = np.flatnonzero((text < np.uint8(ord("0"))) | (text > np.uint8(ord("9"))))
    if len(marks) != 2 * count or count and marks[-1] != len(text) - 1 or not count and len(text):
        return None
    spaces, ends = marks[::2], marks[1::2]
    starts = np.concatenate([np.zeros(min(count, 1), ends.dtype), ends[:-1] + 1])
    widths, turns = spaces - starts, text[ends - 1]
    is_line = (text[spaces] == np.uint8(ord(" "))) & (text[ends] == np.uint8(ord("\n"))) & (ends == spaces + 2) & (turns <= np.uint8(ord("2")))
    is_line &= (widths >= 1) & (widths <= 10) & ((text[starts] != np.uint8(ord("0"))) | (widths == 1))
    if not is_line.all():
        return None
    numbers = np.zeros(count, np.uint64)
    for k in range(int(widths.max()) if count else 0):
        has_digit = widths > k
        numbers[has_digit] += (text[spaces[has_digit] - 1 - k] - np.uint8(ord("0"))).astype(np.uint64) * np.uint64(10**k)
    if count and int(numbers.max()) >> 32:
        return None
    return np.stack([numbers.astype(np.uint32), (turns - np.uint8(ord("0"))).astype(np.uint32)], axis=1)


def _whole_lines(text, count):
    """How many lines of rows stand at the front of these bytes, up to a number."""
    at, row = 0, re.compile(rb"(0|[1-9]\d{0,9}) [012]\n")
    for k in range(count):
        found = row.match(text, at)
        if not found or int(found[1]) >> 32:
            return k
        at = found.end()
    return count


# Floats and grids, in 32 bits.


def _step(grid):
    """The distance of two neighbours on a grid."""
    return np.float32(grid.range) / np.float32((1 << grid.bits) - 1)


def _unit_vectors(pairs, bits):
    """The vectors of length 1 that coordinates in the square of an octahedron stand for, pairs as floats of 32 bits. The square is y and z from -1
    to 1; what is left of 1 is x, and where it is negative, y and z are folded along the edges of the octahedron. The product with the reciprocal of
    the length is what Google's draco has, and not the quotient."""
    one, zero = np.float32(1), np.float32(0)
    with np.errstate(all="ignore"):
        scale = np.float32(2) / np.float32((1 << bits) - 2)
        y, z = (pairs[:, k] * scale - one for k in (0, 1))
        x = one - np.abs(y) - np.abs(z)
        fold = np.maximum(-x, zero)
        y, z = (it + np.where(it < zero, fold, -fold) for it in (y, z))
        square = x * x + y * y + z * z
        has_length = square.astype(np.float64) >= 1e-6
        inverse = np.where(has_length, one / np.sqrt(np.where(has_length, square, one)), zero)
    return np.stack([x * inverse, y * inverse, z * inverse], axis=1)


def _grid(floats, bits):
    """The grid of a table of floats."""
    if not 1 <= bits <= 30:
        raise ValueError(f"bits are {bits}: 1 to 30 are wanted")
    if not np.isfinite(floats).all():
        raise ValueError("a float isn't finite")
    if not len(floats):
        return Quantisation(bits, np.float32(1), np.zeros(floats.shape[1], np.float32))
    minima = floats.min(axis=0)
    with np.errstate(over="ignore"):
        extent = (floats.max(axis=0) - minima).max()
    if not np.isfinite(extent):
        raise ValueError("the extent of the floats is no finite float")
    return Quantisation(bits, _range(extent, np.float32((1 << bits) - 1)), minima)


def _range(extent, most):
    """The range of a grid of so many steps: the extent of its floats, and 1 where that is 0. Where the number of steps in a unit would be
    too great for a float, it is the least range where it isn't."""
    if extent == 0:
        return np.float32(1)
    with np.errstate(over="ignore"):
        while not np.isfinite(most / extent):
            extent = np.nextafter(max(extent, most / np.finfo(np.float32).max), np.float32(np.inf))
    return extent
