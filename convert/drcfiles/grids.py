"""Floats to integers on a grid and back, in floats of 32 bits, operation by operation as Google's draco (version 1.5.5) computes them.

A grid has 2^bits steps from the least value of each component up to the range, which is the greatest extent of a component.

Where floats of 32 bits lose more than half a step of what was read (numbers in map coordinates), the integers are counted in doubles from
minima that are floats of 32 bits at or below the least values, so that minimum and steps say the numbers to half a step.

A grid of a step that was asked for has the multiples of this step: its minima are multiples too, and a number becomes its nearest multiple, wherever
the grid begins. So files that are packed by one step have equal numbers at equal multiples."""
from dataclasses import dataclass

import numpy as np

from .trouble import Trouble

FLOAT = np.float32
BITS = 30  # the most that a stream has
NEAR = 1 / 1024  # of a step: so near to a multiple of it the minimum of a grid of multiples lies, where floats have such a one
TRIES = 4096  # multiples below the least number that are looked at for such a minimum


@dataclass
class Grid:
    """The quantisation of an attribute: bits (1 to 30), range, and a minimum for each component. `in_doubles`: its integers are counted
    in doubles; `multiples_of`: the step that was asked for, of whose multiples they are the numbers from the minimum's on."""

    bits: int
    range: np.float32
    minimum: np.ndarray
    in_doubles: bool = False
    multiples_of: float = None

    @property
    def step(self):
        """The distance of two neighbours on the grid."""
        return FLOAT(self.range) / FLOAT((1 << self.bits) - 1)

    def __str__(self):
        return f"{self.bits} bit{'s' * (self.bits != 1)}, step {self.step_in_words}, origin {' '.join('%.9g' % it for it in self.minimum)}"

    @property
    def step_in_words(self):
        """The step; where one was asked for, that one, and the float that the stream has where it is another number."""
        asked = self.multiples_of
        if asked is None:
            return f"{float(self.step):.6g}"
        return f"{asked:.9g}" + (f" ({float(self.step):.9g} as a float of 32 bits)" if float(self.step) != asked else "")

    @property
    def is_fine(self):
        """Whether floats of 32 bits are further apart than a step at the greatest value of the grid, so that they can't tell its steps."""
        low = np.asarray(self.minimum, np.float64)
        greatest = max(np.abs(low).max(initial=0), np.abs(low + float(self.range)).max(initial=0))
        return bool(np.isfinite(greatest) and greatest < np.finfo(FLOAT).max and np.spacing(FLOAT(greatest)) > self.step)


def check_finite(values, what="values"):
    """Refuses the first row that has a value which isn't a finite number."""
    bad = np.flatnonzero(~np.isfinite(values).all(axis=1))
    if len(bad):
        row = " ".join(str(value) for value in values[bad[0]])
        raise Trouble(f"{what} {bad[0]} isn't finite: {row}")


def grid_of(values, bits, what="values"):
    """The grid of a table of floats, a row for each point."""
    values = np.asarray(values, FLOAT)
    check_finite(values, what)
    if not len(values):
        return Grid(bits, FLOAT(1), np.zeros(values.shape[1], FLOAT))
    low, high = values.min(axis=0), values.max(axis=0)
    with np.errstate(over="ignore"):
        wide = (high - low).max()
    if not np.isfinite(wide):
        raise Trouble(f"{what} are too far apart: their extent is no float of 32 bits")
    return Grid(bits, range_of(FLOAT(wide), bits), low)


def range_of(wide, bits):
    """The range for an extent: the extent itself; 1 where all values are one. Where the number of steps in a unit would be too great for a
    float, it is the least range where it isn't (Google's draco computes with infinity there)."""
    if wide == 0:
        return FLOAT(1)
    steps = FLOAT((1 << bits) - 1)
    with np.errstate(over="ignore"):
        while not np.isfinite(steps / wide):
            wide = np.nextafter(max(wide, steps / np.finfo(FLOAT).max), FLOAT(np.inf))
    return wide


def grid_for(values, bits, what="values"):
    """The grid of a table of floats or of doubles. Doubles that floats of 32 bits say to half a step have the grid of their floats."""
    values = np.asarray(values)
    if values.dtype != np.float64 or not len(values):
        return grid_of(values, bits, what)
    with np.errstate(over="ignore"):
        floats = values.astype(FLOAT)
    check_finite(floats, what)
    low, high = values.min(axis=0), values.max(axis=0)
    step = ((high - low).max() or 1.0) / ((1 << bits) - 1)
    if lost(values) <= step / 2:
        return grid_of(floats, bits, what)
    base = float_below(low)
    wide = float((high - base.astype(np.float64)).max())
    if not np.isfinite(base).all() or wide > np.finfo(FLOAT).max:
        raise Trouble(f"{what} are too far apart: their extent is no float of 32 bits")
    more = next((it for it in range(bits, BITS) if step * ((1 << it) - 1) >= wide), BITS)
    grid = Grid(more, range_of(FLOAT(max(step * ((1 << more) - 1), wide)), more), base, True)
    while to_integers(high[None], grid).max() >= 1 << more:
        grid.range = np.nextafter(grid.range, FLOAT(np.inf))
    return grid


# Grids that are asked for.


def grid_by_step(values, step, what="values"):
    """The grid of a table of floats or doubles whose steps are multiples of a number: the least bits that hold it, and the range whose step is
    the float nearest to that number. The greatest integer of these bits stays free, by which such a grid is known (`grid_again`)."""
    values = np.asarray(values)
    with np.errstate(over="ignore"):
        check_finite(values.astype(FLOAT), what)
    if not len(values):
        return Grid(1, FLOAT(step), np.zeros(values.shape[1], FLOAT), False, step)
    low, high = (it.astype(np.float64) for it in (values.min(axis=0), values.max(axis=0)))
    grid = Grid(BITS, FLOAT(step), np.array([multiple_below(it, step) for it in low], FLOAT), lost(values) > step / 2, step)
    most = float(steps_of(high[None], grid).max())
    least = next((it for it in range(1, BITS + 1) if most < (1 << it) - 1), None)
    if least is None:
        wide = float((high - grid.minimum).max())
        raise Trouble(f"{what}: a step of {step:.9g} over {wide:.6g}, the greatest extent, takes more than {BITS} bits, which are the most that a stream has; "
                      f"a step of {wide / (1 << BITS - 1):.2g} or more fits")
    for bits in range(least, BITS + 1):  # nearly always the first
        wide = range_by_step(FLOAT(step), bits)
        if wide is not None:
            grid.bits, grid.range = bits, wide
            return grid
    raise Trouble(f"{what}: a step of {step:.9g} has no range that is a float of 32 bits")


def multiple_below(low, step):
    """The float of 32 bits at or below a number that is nearly a multiple of the step: the first one that differs by `NEAR` of a step at most, else
    the one that differs least."""
    multiples = (np.floor(low / step) - np.arange(TRIES)) * step
    with np.errstate(over="ignore"):
        floats = multiples.astype(FLOAT).astype(np.float64)
    off = np.where(floats <= low, np.abs(floats - multiples), np.inf)
    near = np.flatnonzero(off <= NEAR * step)
    if len(near) or np.isfinite(off).any():
        return floats[near[0] if len(near) else np.argmin(off)]
    return float_below(low)


def float_below(number):
    """The greatest float of 32 bits that isn't above a number, or those of a table."""
    near = np.asarray(number, np.float64).astype(FLOAT)
    return np.where(near > number, np.nextafter(near, FLOAT(-np.inf)), near)


def range_by_step(step, bits):
    """The range by which a reader has just this step, a float of 32 bits; None where no float is one."""
    count = FLOAT((1 << bits) - 1)
    with np.errstate(over="ignore"):
        wide = step * count
    return next((it for it in (wide, np.nextafter(wide, FLOAT(0)), np.nextafter(wide, FLOAT(np.inf))) if np.isfinite(it) and it / count == step), None)


def grid_again(grid, greatest):
    """The grid of a stream for another table, to round it as the stream's own was; `greatest`: the greatest integer that the stream has. It is one of
    multiples where its minima are these, by the shortest decimal number that names its step, and the greatest integer of its bits is free."""
    step = float(str(grid.step))
    low = grid.minimum.astype(np.float64)
    multiples = np.floor(low / step + 0.5) * step
    is_near = (multiples.astype(FLOAT) == grid.minimum).all() and (np.abs(multiples - low) <= NEAR * step).all()
    if is_near and greatest < (1 << grid.bits) - 1:
        return Grid(grid.bits, grid.range, grid.minimum, False, step)
    return Grid(grid.bits, grid.range, grid.minimum, grid.is_fine)


def check_held(values, grid, what="values"):
    """Refuses the first row that a grid doesn't hold."""
    check_finite(np.asarray(values), what)
    steps = steps_of(values, grid)
    bad = np.flatnonzero(~((steps >= 0) & (steps < 1 << grid.bits)).all(axis=1))
    if len(bad):
        row = " ".join("%.9g" % it for it in values[bad[0]])
        raise Trouble(f"{what} {bad[0]} lies outside of the grid: {row}; {grid}")


def lost(values):
    """The most that a float of 32 bits differs from a number of a table."""
    with np.errstate(over="ignore"):
        return float(np.abs(values - values.astype(FLOAT)).max()) if len(values) else 0.0


def steps_of(values, grid):
    """The nearest step for each value, counted from the minimum of its component, as whole floats."""
    if grid.multiples_of:
        number = lambda it: np.floor(np.asarray(it, np.float64) / grid.multiples_of + 0.5)
        return number(values) - number(grid.minimum)
    if grid.in_doubles:
        steps = (np.asarray(values, np.float64) - grid.minimum.astype(np.float64)) / float(grid.step)
        return np.floor(steps + 0.5)
    with np.errstate(over="ignore"):
        values = np.asarray(values).astype(FLOAT)
        inverse = FLOAT((1 << grid.bits) - 1) / FLOAT(grid.range)
        return np.floor((values - grid.minimum.astype(FLOAT)) * inverse + FLOAT(0.5))


def to_integers(values, grid):
    """The nearest step for each value, counted from the minimum of its component."""
    return steps_of(values, grid).astype(np.int64).astype(np.int32)


def to_floats(integers, grid):
    """The values of steps, bit for bit those that `draco_decoder` gives."""
    return np.asarray(integers).astype(FLOAT) * grid.step + grid.minimum.astype(FLOAT)


def unit_vectors(pairs, bits):
    """The vectors of length 1 that octahedral coordinates of so many bits stand for, bit for bit those that `draco_decoder` gives."""
    one, zero = FLOAT(1), FLOAT(0)
    pairs = np.asarray(pairs)
    scale = FLOAT(2) / FLOAT((1 << bits) - 2)
    y, z = (pairs[:, k].astype(FLOAT) * scale - one for k in (0, 1))
    x = one - np.abs(y) - np.abs(z)
    below = np.maximum(-x, zero)
    y, z = (it + np.where(it < zero, below, -below) for it in (y, z))
    square = x * x + y * y + z * z
    has_direction = square.astype(np.float64) >= 1e-6
    turn = np.where(has_direction, one / np.sqrt(np.where(has_direction, square, one)), zero)
    return np.stack([x * turn, y * turn, z * turn], axis=1)


def octahedral(vectors, bits):
    """The octahedral coordinates, in so many bits, of the directions of vectors: the integers that `draco_encoder` codes. A vector of no length has the
    direction of the first axis."""
    vectors = np.asarray(vectors).astype(FLOAT).astype(np.float64)
    centre, most = (1 << bits - 1) - 1, (1 << bits) - 2
    long = np.abs(vectors[:, 0]) + np.abs(vectors[:, 1]) + np.abs(vectors[:, 2])
    has_direction = long > 1e-6
    shares = np.where(has_direction[:, None], vectors * (1 / np.where(has_direction, long, 1))[:, None], [1.0, 0.0, 0.0])
    x, y = (np.floor(shares[:, k] * centre + 0.5).astype(np.int64) for k in (0, 1))
    z = centre - np.abs(x) - np.abs(y)
    y = y + np.where(y > 0, np.minimum(z, 0), -np.minimum(z, 0))
    z = np.maximum(z, 0) * np.where(shares[:, 2] < 0, -1, 1)
    behind = lambda one, other: np.where(one < 0, np.abs(other), most - np.abs(other))
    return canonical(np.where(x >= 0, y + centre, behind(y, z)), np.where(x >= 0, z + centre, behind(z, y)), centre, most)


def canonical(s, t, centre, most):
    """Octahedral coordinates as one pair for each direction: at the border of the square two pairs name one direction, and all corners another one."""
    is_corner = ((s == 0) & ((t == 0) | (t == most))) | ((s == most) & (t == 0))
    turns_t = ((s == 0) & (t > centre)) | ((s == most) & (t < centre))
    turns_s = ~turns_t & (((t == most) & (s < centre)) | ((t == 0) & (s > centre)))
    one = np.where(is_corner, most, np.where(turns_s, most - s, s))
    other = np.where(is_corner, most, np.where(turns_t, most - t, t))
    return np.stack([one, other], axis=1).astype(np.int32)


def greatest_angle(vectors, found):
    """The greatest angle between vectors of a direction and unit vectors, in degrees."""
    vectors, found = (np.asarray(it, np.float64) for it in (vectors, found))
    apart = np.linalg.norm(np.cross(vectors, found), axis=1), (vectors * found).sum(axis=1)
    has_direction = np.abs(vectors).sum(axis=1) > 1e-6
    return float(np.degrees(np.arctan2(*apart)[has_direction].max(initial=0)))


def to_doubles(integers, grid):
    """The values of steps where floats of 32 bits can't tell them: minimum and step as they are, and the rest in doubles."""
    return np.asarray(integers).astype(np.float64) * float(grid.step) + grid.minimum.astype(np.float64)
