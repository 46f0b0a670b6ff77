"""A mesh or cloud as a file of floats has it: attributes by points, and triangles."""
import decimal
from dataclasses import dataclass, field, replace

import numpy as np

from .faults import in_words
from .trouble import Refused, Trouble

WORDS = ("position", "normal", "colour", "texture coordinate", "generic")  # by usage
POINTS, FACES = 1 << 22, 1 << 22  # the most that a stream has


@dataclass
class Attribute:
    """A table with a row for each point: floats of 32 or 64 bits, which are the numbers that the file has, or integers of 8, 16 or 32
    bits. `head`: what a text of `drc` says of it; `listed`: all values that the file has, from which the grid is made, where the points may
    not use them all."""

    usage: int
    values: np.ndarray
    name: str = ""
    head: object = None
    listed: np.ndarray = None

    @property
    def what(self):
        return self.name or WORDS[self.usage]


@dataclass
class Mesh:
    """Attributes, the position first; triangles as rows of three point numbers (None: a cloud); and what is to be said of the reading."""

    attributes: list
    faces: np.ndarray = None
    notes: list = field(default_factory=list)

    @property
    def points(self):
        return len(self.attributes[0].values)


def single(values):
    """Floats of 32 bits; what is too great for one becomes infinite, which is refused later."""
    with np.errstate(over="ignore", invalid="ignore"):
        return np.asarray(values).astype(np.float32)


def many(count, one, more=None):
    """So many of something, in words: `1 face`, `12,000 faces`."""
    return f"{count:,} {one if count == 1 else more or one + 's'}"


def at_least(error):
    """A number in six digits, none below it: an error that is printed is never less than the error."""
    if not np.isfinite(error) or not error:
        return f"{error:.6g}"
    return f"{float(decimal.Context(prec=6, rounding=decimal.ROUND_CEILING).create_decimal_from_float(float(error))):.6g}"


def check_count(word, what, count, most, path):
    """Refuses more points or faces than a stream has, by the kind of `drc`, before they are worked on."""
    if count > most:
        raise Refused(word, count, f"{path}: {in_words(word, count)}: {what} has {count:,}, and the most are {most:,}")


def check_range(faces, points, path):
    """Refuses the first face that has a number which is no point's."""
    if len(faces):
        bad = np.flatnonzero(((faces < 0) | (faces >= points)).any(axis=1))
        if len(bad):
            row = faces[bad[0]]
            wrong = int(row[(row < 0) | (row >= points)][0])
            raise Trouble(f"{path}: face {bad[0]} (counted from 0) has the index {wrong}, there are {many(points, 'point')}")


def colour_bytes(values):
    """Colours as bytes: floats of 0 to 1 by 255, or of 0 to 255 as they are; the nearest byte."""
    values = np.asarray(values, np.float64)
    scale = 255.0 if not len(values) or np.nanmax(values) <= 1.0 else 1.0
    return np.clip(np.floor(values * scale + 0.5), 0, 255).astype(np.uint8)


def merged(attributes, faces):
    """Points of equal rows as one point, in the order in which they come first."""
    bytes_of = lambda it: np.ascontiguousarray(it.values + it.values.dtype.type(0)).view(np.uint8).reshape(len(it.values), -1)
    table = np.concatenate([bytes_of(it) for it in attributes], axis=1)
    rows = np.ascontiguousarray(table).view(np.dtype((np.void, table.shape[1]))).ravel()
    _, first, number = np.unique(rows, return_index=True, return_inverse=True)
    order = np.argsort(first, kind="stable")
    place = np.empty(len(order), np.int64)
    place[order] = np.arange(len(order))
    kept = [replace(it, values=it.values[first[order]]) for it in attributes]
    return kept, place[number][faces]
