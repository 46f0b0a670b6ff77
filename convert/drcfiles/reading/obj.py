"""OBJ: points, normals, texture coordinates and colours of points, faces of any number of corners. Groups, materials and all else are left
out, and a note says how many.

A point is a triple of numbers as faces name them, so a seam of texture coordinates has points of its own on each side."""
import collections
from array import array

import numpy as np

from ..files import read as read_bytes
from ..mesh import POINTS, Attribute, Mesh, check_count, colour_bytes, many, single
from ..plytext import COLOUR, NORMAL, POSITION, TEXTURE
from ..polygons import split
from ..trouble import Trouble

LISTS = {b"v": 0, b"vt": 1, b"vn": 2}
LEAST = (3, 1, 3)  # how many numbers a line has at least
KEPT = (3, 2, 3)
NAMES = ("vertex", "texture coordinate", "normal")
NAMED = {b"usemtl": "material", b"g": "group", b"o": "object"}  # lines that name what the faces behind them belong to
OTHERS = {b"l": ("polyline", None), b"p": ("list of points", "lists of points"), b"s": ("smoothing group", None), b"curv": ("curve", None), b"surf": ("surface", None)}


class Reader:
    def __init__(self, path):
        self.path = path
        self.numbers = (array("d"), array("d"), array("d"))
        self.lines = (array("q"), array("q"), array("q"))  # the line of each
        self.colours = array("d")
        self.of_token, self.of_corner = {}, {}
        self.points, self.first = [], array("q")  # triples, 0 where there is none, and the line that names each first
        self.counts, self.corners = array("q"), array("q")
        self.named = {word: set() for word in NAMED}
        self.others = collections.Counter()
        self.further = [0, 0]  # points with a fourth number that is no 1, texture coordinates with a third that is no 0

    def wrong(self, line, what):
        return Trouble(f"{self.path} line {line}: {what}")

    def value(self, line, which, words):
        """A line of numbers."""
        if len(words) < LEAST[which]:
            raise self.wrong(line, f"a {NAMES[which]} has {many(len(words), 'number')}, {LEAST[which]} are due")
        try:
            row = [float(word) for word in words]
        except ValueError:
            raise self.wrong(line, f"a {NAMES[which]} has a word that is no number: {b' '.join(words).decode('utf-8', 'replace')[:60]}") from None
        if which == 0 and len(row) >= 6:
            self.colours.extend(row[3:6])
        if which == 0 and len(row) == 4 and row[3] != 1 or which == 1 and len(row) > 2 and row[2] != 0:
            self.further[which] += 1
        self.numbers[which].extend((row + [0.0])[: KEPT[which]])
        self.lines[which].append(line)

    def point(self, line, token):
        """The number of the point that a corner names."""
        relative = b"-" in token
        if not relative:
            known = self.of_token.get(token)
            if known is not None:
                return known
        words = token.split(b"/")
        if len(words) > 3 or not words[0]:
            raise self.wrong(line, f"{token.decode('utf-8', 'replace')[:40]} is no corner")
        corner = [0, 0, 0]
        for which, word in enumerate(words):
            if word or which == 0:
                try:
                    number = int(word)
                except ValueError:
                    raise self.wrong(line, f"{token.decode('utf-8', 'replace')[:40]} is no corner") from None
                corner[which] = number if number > 0 else number + len(self.lines[which]) + 1
                if number == 0 or corner[which] < 1:
                    raise self.wrong(line, f"the index {number} names no {NAMES[which]}")
        key = tuple(corner)
        known = self.of_corner.get(key)
        if known is None:
            known = self.of_corner[key] = len(self.points)
            self.points.append(key)
            self.first.append(line)
        if not relative:
            self.of_token[token] = known
        return known

    def read(self, data):
        if b"\n" not in data:
            data = data.replace(b"\r", b"\n")
        check_count("PointLimit", "the mesh", data.count(b"\nv ") + data.startswith(b"v "), POINTS, self.path)
        before = b""
        for line, text in enumerate(data.split(b"\n"), 1):
            if b"#" in text:
                text = text.partition(b"#")[0]
            text = before + text.rstrip()
            before = b""
            if text.endswith(b"\\"):
                before = text[:-1] + b" "
                continue
            words = text.split()
            if not words:
                continue
            which = LISTS.get(words[0])
            if which is not None:
                self.value(line, which, words[1:])
            elif words[0] == b"f":
                self.counts.append(len(words) - 1)
                self.corners.extend([self.point(line, token) for token in words[1:]])
            elif words[0] in NAMED:
                self.named[words[0]].add(b" ".join(words[1:]))
            elif words[0] != b"s" or words[1:] not in ([b"off"], [b"0"]):
                self.others[words[0]] += 1

    def notes(self):
        """What the lines say that a stream has no room for."""
        left = [many(len(names), NAMED[word]) for word, names in self.named.items() if names]
        left += [many(count, *OTHERS[word]) for word, count in self.others.items() if word in OTHERS]
        further = sum(count for word, count in self.others.items() if word not in OTHERS and word != b"mtllib")
        left += [many(further, "further line")] if further else []
        left += [f"the weights of {many(self.further[0], 'point')}"] if self.further[0] else []
        left += [f"the third number of {many(self.further[1], 'texture coordinate')}"] if self.further[1] else []
        if self.colours and len(self.colours) != 3 * len(self.lines[0]):
            left.append(f"colours, which {len(self.colours) // 3:,} of {many(len(self.lines[0]), 'point')} have")
        return [f"left out, since a stream has no room for it: {', '.join(left)}"] if left else []

    def check(self, table):
        """Refuses the first point that names a number which isn't there."""
        for which in range(3):
            bad = np.flatnonzero(table[:, which] > len(self.lines[which]))
            if len(bad):
                raise self.wrong(self.first[int(bad[0])], f"the index {table[bad[0], which]} names no {NAMES[which]}, there are {len(self.lines[which]):,}")

    def values(self, which):
        values = np.frombuffer(self.numbers[which], np.float64).reshape(-1, KEPT[which])
        bad = np.flatnonzero(~np.isfinite(single(values)).all(axis=1))
        if len(bad):
            raise self.wrong(self.lines[which][int(bad[0])], f"a {NAMES[which]} isn't finite: {' '.join(map(str, values[bad[0]]))}")
        return values

    def mesh(self):
        if not len(self.lines[0]):
            raise Trouble(f"{self.path}: no vertices (no line begins with `v`)")
        positions = self.values(0)
        table = np.array(self.points, np.int64).reshape(-1, 3)
        if not len(table):  # only points
            return Mesh([Attribute(POSITION, positions)], np.zeros((0, 3), np.int64), self.notes())
        self.check(table)
        faces, notes = split(self.counts, self.corners, positions[table[:, 0] - 1])
        notes = self.notes() + notes
        # Points in no face stay, as in any other format, behind the others.
        alone = np.setdiff1d(np.arange(1, len(positions) + 1), table[:, 0])
        if len(alone):
            table = np.concatenate([table, np.stack([alone, 0 * alone, 0 * alone], axis=1)])
        attributes = [Attribute(POSITION, positions[table[:, 0] - 1])]
        for which, usage in ((2, NORMAL), (1, TEXTURE)):
            named = table[:, which] > 0
            if named.any():
                values = np.zeros((len(table), KEPT[which]))
                listed = self.values(which)
                values[named] = listed[table[named, which] - 1]
                missing = int((~named[: len(self.points)]).sum())
                attributes.append(Attribute(usage, values, listed=np.concatenate([listed, values[~named]])))
                if missing:
                    notes.append(f"{many(missing, 'point')} of faces without a {NAMES[which]}, which gets zeros")
        if self.colours and len(self.colours) == 3 * len(positions):
            attributes.append(Attribute(COLOUR, colour_bytes(np.frombuffer(self.colours).reshape(-1, 3))[table[:, 0] - 1]))
        return Mesh(attributes, faces, notes)


def read(path):
    reader = Reader(path)
    reader.read(read_bytes(path))
    return reader.mesh()
