"""The surface of a mesh (docs/FORMAT.md, "Pairing" and "Seams and classes"): which sides of its triangles are glued, where attributes have
seams, and how many points a reader of an Edgebreaker stream makes of it.

Corner 3f + k is corner k of face f; its side lies across from it, and runs from the corner after it to the corner before it. Tables have
an entry for each corner."""
import numpy as np

NONE = -1


def after(corners):
    return corners - corners % 3 + (corners + 1) % 3


def before(corners):
    return corners - corners % 3 + (corners + 2) % 3


def numbers_of(rows):
    """A number for each row of a table; equal rows have equal numbers."""
    rows = np.asarray(rows)
    order = np.lexsort(rows.T[::-1])
    is_new = np.ones(len(rows), bool)
    is_new[1:] = (rows[order[1:]] != rows[order[:-1]]).any(axis=1)
    numbers = np.empty(len(rows), np.int64)
    numbers[order] = np.cumsum(is_new) - 1
    return numbers


def degenerate(places, faces):
    """Which faces have two corners at one place; `places` has a number for each point."""
    at = places[faces]
    return (at[:, 0] == at[:, 1]) | (at[:, 1] == at[:, 2]) | (at[:, 2] == at[:, 0])


def across(places):
    """The corner whose side is glued to the side of each corner, or NONE. `places` has a number for each corner; no face is degenerate.

    A side is glued to the least earlier one that isn't glued yet, runs the other way, and whose corner lies at another place."""
    corners = np.arange(len(places))
    start, end = places[after(corners)], places[before(corners)]
    low, high = np.minimum(start, end), np.maximum(start, end)
    order = np.lexsort((corners, high, low))
    is_first = np.ones(len(order), bool)
    is_first[1:] = (low[order[1:]] != low[order[:-1]]) | (high[order[1:]] != high[order[:-1]])
    first = np.flatnonzero(is_first)
    size = np.diff(np.append(first, len(order)))
    glued = np.full(len(places), NONE)
    one, two = order[first[size == 2]], order[first[size == 2] + 1]
    fit = (start[one] != start[two]) & (places[one] != places[two])
    glued[one[fit]], glued[two[fit]] = two[fit], one[fit]
    for at, count in zip(first[size > 2], size[size > 2]):
        pair_many(order[at : at + count].tolist(), start, places, glued)
    return glued


def pair_many(sides, start, places, glued):
    """Pairs the sides of an edge of three and more faces, in their order."""
    waiting = []
    for side in sides:
        found = next((it for it in waiting if start[it] != start[side] and places[it] != places[side]), None)
        if found is None:
            waiting.append(side)
        else:
            waiting.remove(found)
            glued[side], glued[found] = found, side


def neighbours(glued):
    """The corner to the right of each corner round its vertex, across the side of the corner before it; NONE where that side is free."""
    side = glued[before(np.arange(len(glued)))]
    return np.where(side == NONE, NONE, before(side))


def seam_sides(glued, values):
    """Which sides are seams of an attribute: glued, and at an end the two corners that meet there have other numbers in `values`."""
    corners = np.arange(len(glued))
    there = np.where(glued == NONE, corners, glued)
    differs = (values[after(corners)] != values[before(there)]) | (values[before(corners)] != values[after(there)])
    return differs & (glued != NONE)


def runs(right):
    """A number for each corner, the same along a chain of corners to the right. A chain is cut where `right` is NONE, or closes up."""
    own = np.arange(len(right))
    far = np.where(right == NONE, own, right)
    is_end, least = far == own, np.minimum(own, far)
    while True:
        further, less = far[far], np.minimum(least, least[far])
        is_done = is_end[further].sum() == is_end[far].sum() and (less == least).all()
        far, least = further, less
        if is_done:
            return np.where(is_end[far], far, least)


def points_made(faces, tables):
    """How many points a reader makes of an Edgebreaker stream of these faces, which aren't degenerate. Each table has the rows of an
    attribute, one for each point; the first is that of the positions. Round a vertex a point ends where the class of an attribute does."""
    corners = faces.ravel()
    places, *others = (numbers_of(table)[corners] for table in tables)
    glued = across(places)
    right = neighbours(glued)
    crossed = before(np.arange(len(right)))
    there = np.where(right == NONE, 0, right)
    is_joined = right != NONE
    for values in others:
        classes = runs(np.where(seam_sides(glued, values)[crossed], NONE, right))
        is_joined &= classes == classes[there]
    return len(np.unique(runs(np.where(is_joined, right, NONE))))
