"""Triangles of faces of any number of corners: fans from the first corner; where a fan would leave a concave face, by clipping ears.

An ear is a corner that points outwards, whose triangle with its two neighbours has no other corner of the face in it. A simple polygon of
more than three corners has at least two (Meisters 1975), so that clipping one after another gives triangles which are just the face."""
import numpy as np

from .mesh import many

PAIRS = 1 << 18  # of sides that are compared at once
SLACK = 1e-9  # of a face's area: a triangle turned against its face by less is flat, not turned


def split(counts, corners, places):
    """Triangles of faces of so many corners each, listed one after another, beside a note of what was done. `places` has a row for each
    point; a face that names a point which isn't there becomes a fan, and is refused where numbers are tested."""
    counts, corners = np.asarray(counts, np.int64), np.asarray(corners, np.int64)
    starts = np.cumsum(counts) - counts
    made = np.maximum(counts - 2, 0)
    first = np.cumsum(made) - made  # of each face's triangles
    of = np.repeat(np.arange(len(counts)), made)
    second = starts[of] + 1 + np.arange(len(of)) - first[of]
    faces = np.stack([corners[starts[of]], corners[second], corners[second + 1]], axis=1) if len(of) else np.zeros((0, 3), np.int64)
    notes = []
    wide, narrow = counts > 3, counts < 3
    if wide.any():
        notes.append(f"{many(int(wide.sum()), 'face')} of more than three corners split into {int(made[wide].sum()):,} triangles")
        concave = turned(faces, of, wide, places)
        four = concave[counts[concave] == 4]
        a, b, c, d = (corners[starts[four] + k] for k in range(4))
        faces[first[four]], faces[first[four] + 1] = np.stack([b, c, d], axis=1), np.stack([b, d, a], axis=1)
        crossed = len(np.intersect1d(four, turned(faces, of, wide, places)))
        for face in concave[counts[concave] > 4].tolist():
            ring = corners[starts[face] : starts[face] + counts[face]]
            ears, is_simple = ears_of(np.asarray(places[ring], np.float64))
            faces[first[face] : first[face] + made[face]] = ring[ears]
            crossed += not is_simple
        if len(concave):
            notes.append(f"{many(len(concave), 'face is', 'faces are')} concave, and split by clipping ears")
        if crossed:
            notes.append(f"{many(crossed, 'face crosses itself or is', 'faces cross themselves or are')} folded: no split has just its area")
    if narrow.any():
        notes.append(f"{many(int(narrow.sum()), 'face')} of fewer than three corners left out")
    return faces, notes


def turned(faces, of, wide, places):
    """The faces of more than three corners one of whose triangles is turned against the face."""
    is_there = ((faces >= 0) & (faces < len(places))).all(axis=1)
    rows = np.flatnonzero(wide[of] & ~np.isin(of, of[~is_there]))
    a, b, c = (np.asarray(places[faces[rows, k]], np.float64) for k in range(3))
    areas, of = np.cross(b - a, c - a), of[rows]
    whole = np.stack([np.bincount(of, areas[:, k], len(wide)) for k in range(3)], axis=1)[of]
    return np.unique(of[(areas * whole).sum(axis=1) < -SLACK * (whole**2).sum(axis=1)])


def ears_of(ring):
    """Triangles of a polygon, as rows of the numbers of its corners, and whether they are just the polygon: its sides don't cross, and each
    triangle was an ear."""
    after = np.roll(ring, -1, axis=0)
    normal = np.cross(ring - ring[0], after - ring[0]).sum(axis=0)
    axis = int(np.abs(normal).argmax())
    flat = np.delete(ring, axis, axis=1)
    if (normal[axis] < 0) != (axis == 1):
        flat = flat[:, ::-1]
    left, made, is_simple = list(range(len(ring))), [], not crosses(flat)
    while len(left) > 3:
        here = flat[left]
        before, behind = np.roll(here, 1, axis=0), np.roll(here, -1, axis=0)
        turn = cross(here - before, behind - here)
        inward = here[turn <= 0]
        ear = next((k for k in np.flatnonzero(turn > 0) if is_ear(before[k], here[k], behind[k], inward)), None)
        if ear is None:
            level = np.flatnonzero(np.abs(turn) <= SLACK * np.abs(turn).max())
            is_simple &= bool(len(level))
            ear = level[0] if len(level) else int(turn.argmax())
        made.append((left[ear - 1], left[ear], left[(ear + 1) % len(left)]))
        del left[ear]
    return np.array([*made, left]), is_simple


def crosses(ring):
    """Whether two sides of a polygon in the plane cross; sides that only touch don't."""
    start, end, count = ring, np.roll(ring, -1, axis=0), len(ring)
    for first in range(0, count, max(1, PAIRS // count)):
        a, b = (it[first : first + max(1, PAIRS // count), None] for it in (start, end))
        here = cross(b - a, start - a) * cross(b - a, end - a)
        there = cross(end - start, a - start) * cross(end - start, b - start)
        if ((here < 0) & (there < 0)).any():
            return True
    return False


def cross(a, b):
    return a[..., 0] * b[..., 1] - a[..., 1] * b[..., 0]


def is_ear(a, b, c, inward):
    """Whether none of the corners that point inwards lies in a triangle, but at its corners."""
    inside = (cross(b - a, inward - a) >= 0) & (cross(c - b, inward - b) >= 0) & (cross(a - c, inward - c) >= 0)
    at_corner = (inward == a).all(axis=1) | (inward == b).all(axis=1) | (inward == c).all(axis=1)
    return not (inside & ~at_corner).any()
