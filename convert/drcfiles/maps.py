"""The text of a map: where each face of a stream stood in what was encoded, and how it is turned (docs/FORMAT.md, "Geometry and renumbering")."""
import re

import numpy as np

from .plytext import lines_of
from .trouble import Trouble

HEAD = re.compile(rb"map (mesh|cloud) (\d+)\n")


def read_map(text, path):
    """The kind, `mesh` or `cloud`, and the rows: a number and a turn each."""
    head = HEAD.match(text)
    numbers = np.fromstring(text[head.end() :].decode("ascii", "replace"), np.int64, sep=" ") if head else None
    if head is None or len(numbers) != 2 * int(head[2]):
        raise Trouble(f"{path} is no map as `drc enc` writes it")
    return head[1].decode(), numbers.reshape(-1, 2)


def write_map(kind, rows):
    return b"".join([f"map {kind} {len(rows)}\n".encode(), *lines_of(rows)])


def identity(text, path):
    """A map of as many rows as this one, each of which stays where it is."""
    kind, rows = read_map(text, path)
    return write_map(kind, np.stack([np.arange(len(rows)), np.zeros(len(rows), np.int64)], axis=1))


def joined(first, second, path):
    """Two maps as one: the first of a stream, the second of one that was made of it."""
    (kind, a), (other, b) = read_map(first, path), read_map(second, path)
    if kind != other or len(a) != len(b) or (len(b) and not 0 <= b[:, 0].min() <= b[:, 0].max() < len(a)):
        raise Trouble(f"{path} isn't the map of this stream")
    met = a[b[:, 0]]
    return write_map(kind, np.stack([met[:, 0], (met[:, 1] + b[:, 1]) % 3], axis=1))
