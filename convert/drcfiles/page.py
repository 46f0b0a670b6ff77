"""What the page of drc-view shows of a `.drc` file, as one value of JSON: counts and heads, and tables of numbers as base64."""
import base64
import json
import pathlib
import re

import numpy as np

from .faults import faults
from .plytext import POSITION, QUANTISED
from .surface import NONE, across, after, before, degenerate, numbers_of, seam_sides

TEMPLATE = pathlib.Path(__file__).resolve().parent / "page.html"
NO_PREDICTION = -2
TYPE_NAMES = {1: "int8", 2: "uint8", 3: "int16", 4: "uint16", 5: "int32", 6: "uint32", QUANTISED: "float32"}


def packed(table, kind):
    """A table of numbers as base64 of its little-endian bytes."""
    return base64.b64encode(np.ascontiguousarray(table, kind).tobytes()).decode()


def of_report(report):
    """The report of `drc info`: what is said of the stream, and of each attribute its prediction and number of entries."""
    lines = [line.split() for line in report.splitlines()]
    said = {"version": lines[0][1], "kind": lines[0][2], "method": lines[0][3]}
    for words in lines[1:]:
        if words[0] == "symbols":
            said.update(zip(words[::2], map(int, words[1::2])))
        elif words[0] == "connectivity":
            said["connectivity"] = int(words[2])
        elif words[0] == "end":
            said.update(end=int(words[1]), rest=int(words[3]))
    attributes = [re.search(r" predict (-?\d+) entries (\d+)", line) for line in report.splitlines() if line.startswith("attr ")]
    return said, [(int(it[1]), int(it[2])) for it in attributes]


def of_kd(geometry):
    """The same of a kd-tree file, of which there is no report."""
    return {"version": "1", "kind": "cloud", "method": "kd"}, [(NO_PREDICTION, geometry.points)] * len(geometry.heads)


def lines_of(geometry, position):
    """The sides that are free, and for each attribute its seams: ends of lines, as numbers of points."""
    places = numbers_of(geometry.values[position])
    faces = geometry.faces[~degenerate(places, geometry.faces)]
    points = faces.ravel()
    glued = across(places[points])
    ends = lambda sides: points[np.stack([after(sides), before(sides)], axis=1)]
    seams = {}
    for k, table in enumerate(geometry.values):
        if k != position:
            is_seam = seam_sides(glued, numbers_of(table)[points])
            seams[k] = ends(np.flatnonzero(is_seam & (np.arange(len(glued)) < glued)))
    return places, ends(np.flatnonzero(glued == NONE)), seams


def of_geometry(geometry, report):
    """The value for a file that was decoded, with its report (None: a kd-tree file)."""
    said, coded = of_report(report) if report is not None else of_kd(geometry)
    position = geometry.first(POSITION) or 0
    made = {"stream": said, "points": geometry.points, "position": position, "attributes": []}
    for k, (head, (prediction, entries)) in enumerate(zip(geometry.heads, coded)):
        item = {"usage": head.usage, "type": TYPE_NAMES[head.dtype], "components": head.wide, "normalized": head.normalized, "id": head.id}
        item.update(prediction=prediction, entries=entries)
        if head.grid:
            item.update(bits=head.grid.bits, range=float(head.grid.range) if np.isfinite(head.grid.range) else None)
        if head.octa:
            item.update(octahedral=head.octa)
        made["attributes"].append({**item, "values": packed(geometry.from_origin(k), "<f4" if head.has_floats else "<i4")})
    if geometry.faces is not None:
        places, borders, seams = lines_of(geometry, position)
        made.update(faces=len(geometry.faces), corners=packed(geometry.faces, "<u4"), borders=packed(borders, "<u4"))
        made["seams"] = [{"attribute": k, "ends": packed(ends, "<u4")} for k, ends in seams.items() if len(ends)]
        if len(geometry.faces) and places.max() + 1 < geometry.points:
            made["places"] = packed(places, "<u4")
    return made


def of_fault(refused):
    """The value for a file that was refused."""
    fault = faults().get(refused.word)
    words = {"means": fault.means, "number": fault.number, "helps": fault.helps} if fault else {}
    return {"fault": {"word": refused.word, "at": refused.number, **words}}


def page(value):
    """The page, whole and by itself: the template with the value put in."""
    text = json.dumps(value, separators=(",", ":"), allow_nan=False).replace("<", "\\u003c")
    head, tail = TEMPLATE.read_text(encoding="utf-8").split("{VALUE}")
    return "".join((head, text, tail)).encode("utf-8")
