"""OFF, text (the format of Geomview and CGAL): points, faces of any number of corners; of COFF colours, of NOFF normals, of STOFF texture
coordinates. Colours of faces are left out, and a note says so."""
import re

import numpy as np

from ..files import read as read_bytes
from ..mesh import POINTS, Attribute, Mesh, check_count, colour_bytes, many
from ..plytext import COLOUR, NORMAL, POSITION, TEXTURE
from ..polygons import split
from ..trouble import Trouble

KEYWORD = re.compile(rb"(ST)?(C)?(N)?(4)?(n)?OFF$")
COLOURS = (3, 4)  # how many numbers a colour of a point has


def read(path):
    return Reader(path, read_bytes(path)).mesh()


class Reader:
    """The lines that have words, without their comments, each with its number from 1."""

    def __init__(self, path, data):
        self.path = path
        if re.match(rb"\s*\w*OFF\s+BINARY\b", data):
            raise Trouble(f"{path}: a binary OFF, and those are read as text alone")
        lines = data.replace(b"\r\n", b"\n").replace(b"\r", b"\n").split(b"\n")
        words = ((number, line.partition(b"#")[0].split()) for number, line in enumerate(lines, 1))
        self.rows = [(number, row) for number, row in words if row]
        self.last = len(lines)

    def wrong(self, k, what):
        return Trouble(f"{self.path} line {self.rows[k][0] if k < len(self.rows) else self.last}: {what}")

    def cut(self, what, there, count):
        return Trouble(f"{self.path} is cut: it ends behind {there:,} of {count:,} {what}")

    def head(self):
        """The parts that the keyword says points have, and the numbers of points and faces; the rows behind them are left."""
        if not self.rows:
            raise Trouble(f"{self.path}: an empty file")
        found = KEYWORD.match(self.rows[0][1][0])
        if found:
            del self.rows[0][1][0]
            if not self.rows[0][1]:
                del self.rows[0]
        if found and (found[4] or found[5]):
            raise Trouble(f"{self.path}: points of another number of coordinates than three ({found[0].decode()})")
        counts = self.rows[0][1] if self.rows else []
        if len(counts) < 2 or not all(it.isdigit() for it in counts[:3]):
            raise self.wrong(0, "the keyword OFF and the numbers of points and faces are due" if not found else "the numbers of points and faces are due")
        del self.rows[0]
        points, faces = int(counts[0]), int(counts[1])
        check_count("PointLimit", "its header", points, POINTS, self.path)
        return found or KEYWORD.match(b"OFF"), points, faces

    def numbers(self, rows, width):
        try:
            return np.array([row[:width] for _, row in rows], np.float64).reshape(-1, width)
        except ValueError:
            for k, (line, row) in enumerate(rows):
                try:
                    list(map(float, row[:width]))
                except ValueError:
                    raise Trouble(f"{self.path} line {line}: {b' '.join(row).decode('utf-8', 'replace')[:60]} isn't a row of numbers") from None
                if len(row) < width:
                    raise Trouble(f"{self.path} line {line}: a point has {len(row)} numbers, {width} are due") from None
            raise

    def mesh(self):
        keyword, points, faces = self.head()
        if len(self.rows) < points + faces and len(self.rows) < points:
            raise self.cut("points", len(self.rows), points)
        if len(self.rows) < points + faces:
            raise self.cut("faces", len(self.rows) - points, faces)
        if not points:
            raise Trouble(f"{self.path}: no points")
        width = len(self.rows[0][1])
        table = self.numbers(self.rows[:points], width)
        attributes, notes = self.attributes(keyword, table)
        counts, corners = [], []
        coloured = 0
        for k in range(points, points + faces):
            row = self.rows[k][1]
            try:
                count = int(row[0])
                if not 0 <= count < len(row):
                    raise self.wrong(k, f"a face has {row[0].decode()} corners, and the line names {len(row) - 1}")
                corners += map(int, row[1 : count + 1])
            except ValueError:
                raise self.wrong(k, f"{b' '.join(row).decode('utf-8', 'replace')[:60]} is no face") from None
            counts.append(count)
            coloured += len(row) > count + 1
        if coloured:
            notes.append(f"colours of {many(coloured, 'face')} left out")
        made, more = split(counts, corners, attributes[0].values)
        return Mesh(attributes, made, notes + more)

    def attributes(self, keyword, table):
        """Positions; then, in the order in which Geomview has them, normals, colours and texture coordinates."""
        width, place = table.shape[1], 3
        if width < 3:
            raise self.wrong(0, f"a point has {many(width, 'number')}, 3 are due")
        attributes, notes = [Attribute(POSITION, table[:, :3])], []
        if keyword[3] and width >= place + 3:
            attributes.append(Attribute(NORMAL, table[:, place : place + 3]))
            place += 3
        if keyword[2]:
            comps = width - place - (2 if keyword[1] else 0)
            if comps not in COLOURS:
                raise self.wrong(0, f"a point of COFF has {many(comps, 'number')} of a colour, 3 or 4 are due")
            attributes.append(Attribute(COLOUR, colour_bytes(table[:, place : place + comps])))
            place += comps
        if keyword[1] and width >= place + 2:
            attributes.append(Attribute(TEXTURE, table[:, place : place + 2]))
            place += 2
        if width > place:
            notes.append(f"{many(width - place, 'further number')} of each point left out")
        return attributes, notes
