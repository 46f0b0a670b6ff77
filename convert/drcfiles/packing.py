"""From a mesh of floats to a stream: quantising, the text, `drc enc`."""
import argparse
import re
from dataclasses import dataclass, field, replace

import numpy as np

from . import curves, grids, maps, plytext, reading
from .mesh import FACES, POINTS, at_least, check_count, many
from .plytext import COLOUR, GENERIC, NORMAL, POSITION, QUANTISED, TEXTURE, TYPE_OF, TYPES, Geometry, Head, names_of
from .trouble import BAD_WORDS, Refused, Trouble
from .writing import DIGITS

CHOICES = {"method": ("seq", "eb", "valence"), "predict": ("none", "diff", "para", "multi", "shape"), "walk": ("depth", "degree"), "index": ("plain", "packed")}
SKIPS = {"normal": NORMAL, "colour": COLOUR, "texture": TEXTURE, "generic": GENERIC}
BITS = {"qp": (POSITION, 14, "positions"), "qn": (NORMAL, 10, "normals, octahedral ones by --profile 3"), "qt": (TEXTURE, 12, "texture coordinates"), "qg": (GENERIC, 8, "generic floats")}
GREATEST = (1 << 31) - 1  # of integers in a stream
DIGIT = 5e-9  # of a number: half the ninth of its digits is no more
NUMBERS_AT_ONCE = 16  # of a comment that lists faces
OCTAHEDRAL = 8  # bits of normals by profile 3, where no others are asked for
LARGE = 1000  # so many faces are coded by valence where no method is asked for


def skip_of(usage):
    return next((name for name, it in SKIPS.items() if it == usage), "generic")


@dataclass
class Settings:
    """How a mesh is packed: bits by usage, usages left out, what becomes of degenerate faces, the options of `enc`, for positions a step or the
    grid of another file, whether the points of a cloud are put in order along a curve, and the profile: by 3 normals are octahedral.
    `is_saving_told`: whether a line says what profile 3 would save."""

    bits: dict = field(default_factory=lambda: {usage: bits for usage, bits, _ in BITS.values()})
    skip: frozenset = frozenset()
    keep_degenerate: bool = False
    cloud: bool = False
    enc: tuple = ()
    step: float = None
    grid: grids.Grid = None
    sort: bool = False
    profile: int = 2
    is_saving_told: bool = False

    def __str__(self):
        words = [f"--{name} {self.bits[usage]}" for name, (usage, _, _) in BITS.items()]
        words += [f"--skip {name}" for name, usage in sorted(SKIPS.items()) if usage in self.skip]
        words += ["--keep-degenerate"] * self.keep_degenerate + ["--cloud"] * self.cloud + ["--sort"] * self.sort + ["--profile 3"] * (self.profile == 3)
        return " ".join([*words, *grid_words(self), *self.enc])


def grid_words(settings):
    """The step or the grid of positions, as words by which a later run knows them."""
    return ([f"--step {settings.step!r}"] if settings.step else []) + ([f"--grid {settings.grid!r}"] if settings.grid else [])


def add_words(words):
    """The options of packing, for a command line."""
    steps = words.add_mutually_exclusive_group()
    for name, (usage, bits, what) in BITS.items():
        more = f" and {OCTAHEDRAL} of octahedral ones" if usage == NORMAL else ""
        (steps if usage == POSITION else words).add_argument(f"--{name}", type=bits_word, default=None if usage == NORMAL else bits, metavar="BITS",
                                                             help=f"bits of {what}, 1 to 30; without it {bits}{more}")
    add_grids(steps)
    words.add_argument("--skip", action="append", choices=sorted(SKIPS), default=[], help="leaves out attributes of this usage; may be given again")
    add_degenerate(words)
    words.add_argument("--cloud", action="store_true", help="takes the points alone, as a cloud")
    words.add_argument("--sort", action="store_true", help="puts the points of a cloud in order along a Hilbert curve, where that takes fewer bytes; the map keeps their numbers")
    add_profile(words, 2, "plain ones are read by all programs that read streams in profile 2, as `drc dec` does without an option")
    add_choices(words)


def add_profile(words, default, why):
    """The profile, for a command line."""
    words.add_argument("--profile", type=int, choices=(2, 3), default=default, help=f"3 codes normals octahedrally, and predicts them and texture coordinates from positions; without it {default or 3}: {why}")


def normal_bits(given, profile):
    """The bits of normals of a command line; octahedral ones have 2 and more."""
    bits = given.qn or (OCTAHEDRAL if profile == 3 else BITS["qn"][1])
    if profile == 3 and bits < 2:
        raise Trouble("--qn 1: octahedral normals have 2 to 30 bits", BAD_WORDS)
    return bits


def add_grids(words):
    """What says the grid of positions in place of bits, for a command line."""
    words.add_argument("--step", type=step_word, metavar="STEP", help="of positions, in the file's units: they become its nearest multiples, in each file that is packed by it")
    words.add_argument("--grid", metavar="FILE", help="takes the grid of the positions of another packed file, a .drc, .glb or .gltf: its origin, step and bits")


def step_word(word):
    try:
        step = float(word)
    except ValueError:
        step = 0.0
    if not np.finfo(np.float32).tiny <= step <= np.finfo(np.float32).max:
        raise argparse.ArgumentTypeError(f"{word} is no step, which is a number above 0 that floats of 32 bits have")
    return step


def add_degenerate(words):
    """What becomes of faces with two corners at one place of the grid, for a command line."""
    either = words.add_mutually_exclusive_group()
    either.add_argument("--keep-degenerate", action="store_true", help="keeps faces with two corners at one place of the grid, and codes a mesh "
                        "that has such faces sequentially, which takes more bytes; without it they are left out, and a line says how many")
    either.add_argument("--drop-degenerate", action="store_true", help="leaves them out, as without either")


def add_choices(words, large="faces on"):
    """The options of `enc`, for a command line. `large`: how a large mesh, which has a method of its own, is told behind its number of faces; if it has one."""
    for name, values in CHOICES.items():
        more = f"; without it valence from {LARGE:,} {large}" if name == "method" and large else ""
        words.add_argument(f"--{name}", choices=values, help=f"as of `drc enc`{more}")
    words.add_argument("--plain-values", action="store_true", help="as of `drc enc`")


def bits_word(word):
    if not (word.isdigit() and 1 <= int(word) <= 30):
        raise argparse.ArgumentTypeError(f"{word} is no number of bits from 1 to 30")
    return int(word)


def choices_of(given):
    """The words for `drc enc` of a command line."""
    words = [word for name in CHOICES if getattr(given, name) for word in (f"--{name}", getattr(given, name))]
    return tuple(words + ["--plain-values"] * given.plain_values)


def settings_of(given, grid=None):
    """The settings of a command line, with the grid of the file that it names."""
    bits = {usage: getattr(given, name) for name, (usage, _, _) in BITS.items()}
    bits[NORMAL] = normal_bits(given, given.profile)
    return Settings(bits, frozenset(SKIPS[it] for it in given.skip), given.keep_degenerate, given.cloud, choices_of(given), given.step, grid, given.sort, given.profile)


def with_method(words, count):
    """Options of `enc` for a mesh of so many faces: large ones are coded by valence, where no method is asked for."""
    return words if "--method" in words or count < LARGE else (*words, "--method", "valence")


def with_profile(words, profile, is_mesh):
    """Options of `enc` in a profile: by profile 3 meshes of Edgebreaker are predicted by their shape, where no prediction is asked for."""
    if profile == 2:
        return words
    shape = ("--predict", "shape") if is_mesh and "--predict" not in words and not is_sequential(words) else ()
    return (*words, "--profile", "3", *shape)


def sequential(words):
    """Options of `enc` for the sequential method: without those that are Edgebreaker's."""
    kept, rest = ["--method", "seq"], iter(words)
    for word in rest:
        value = next(rest) if word != "--plain-values" else None
        if word == "--plain-values" or word == "--predict" and value in ("none", "diff") or word in ("--index", "--profile"):
            kept += [it for it in (word, value) if it]
    return kept


def is_sequential(words):
    return any(one == "--method" and two == "seq" for one, two in zip(words, words[1:]))


@dataclass
class Measure:
    """What quantising did to an attribute: its grid in words, and the greatest difference of a component from the number that was read, in the
    units of the mesh; `in_floats`: what it is for a reader that computes in floats of 32 bits, where these can't tell the steps."""

    what: str
    grid: str
    error: float
    in_floats: float = None

    def __str__(self):
        line = f"{self.what}: {self.grid}, greatest error {at_least(self.error)}"
        return line if self.in_floats is None else f"{line} in doubles, {at_least(self.in_floats)} in floats of 32 bits"


@dataclass
class Directions:
    """What octahedral coding did to normals: the greatest angle between one that was read and that which comes back, in degrees."""

    what: str
    bits: int
    angle: float

    def __str__(self):
        return f"{self.what}: {many(self.bits, 'octahedral bit')}, greatest angle {at_least(self.angle)} degrees"


@dataclass
class Integers:
    """An attribute of integers, which are coded as they are."""

    what: str
    type: str

    def __str__(self):
        return f"{self.what}: {self.type}, kept as it is"


def quantised(mesh, settings):
    """The geometry of a mesh, a line for each attribute, and what is to be said of numbers that floats of 32 bits can't tell."""
    kept = [it for it in mesh.attributes if it.usage not in settings.skip]
    heads, values, measures, notes = [], [], [], []
    for number, it in enumerate(kept):
        comps = it.values.shape[1]
        if it.head:
            heads.append(it.head)
            values.append(it.values)
        elif it.values.dtype.kind != "f":
            if it.values.dtype == np.uint32 and len(it.values) and it.values.max() > GREATEST:
                raise Trouble(f"{it.what} has {it.values.max()}, and integers end at {GREATEST} in a stream; --skip {skip_of(it.usage)} leaves it out")
            heads.append(Head(it.usage, TYPE_OF[it.values.dtype.name], comps, int(it.usage == COLOUR), number))
            values.append(it.values)
        elif is_octahedral(it, settings):
            bits = settings.bits[NORMAL]
            grids.check_finite(it.values.astype(grids.FLOAT), it.what)
            heads.append(Head(NORMAL, QUANTISED, 2, 0, number, octa=bits))
            values.append(grids.octahedral(it.values, bits))
        else:
            grid = grid_of(it, settings)
            heads.append(Head(it.usage, QUANTISED, comps, 0, number, grid))
            values.append(grids.to_integers(it.values, grid))
    geometry = Geometry(heads, values, mesh.faces)
    for k, (it, names) in enumerate(zip(kept, names_of(heads))):
        what = f"{it.name} ({' '.join(names)})" if it.name else it.what
        if it.head or it.values.dtype.kind != "f":
            measures.append(Integers(what, TYPES[heads[k].dtype]))
            continue
        if heads[k].octa:
            measures.append(Directions(what, heads[k].octa, grids.greatest_angle(it.values, geometry.floats(k))))
            continue
        is_asked = it.usage == POSITION and bool(settings.step or settings.grid)
        measures.append(measure_of(what, it.values.astype(np.float64), geometry, k, is_asked))
        if heads[k].grid.in_doubles:
            read, bits = it.values if it.listed is None else it.listed, None if is_asked else settings.bits[it.usage]
            notes.append(note_of_doubles(measures[-1], read, bits, heads[k].grid))
    return geometry, measures, notes


def is_octahedral(attribute, settings):
    """Whether an attribute of floats is coded octahedrally."""
    return settings.profile == 3 and attribute.usage == NORMAL and attribute.values.shape[1] == 3


def grid_of(attribute, settings):
    """The grid of an attribute of floats: of positions by the step or the grid that is asked for, else by bits."""
    if attribute.usage == POSITION and settings.step:
        return grids.grid_by_step(attribute.values, settings.step, attribute.what)
    if attribute.usage == POSITION and settings.grid:
        grids.check_held(attribute.values, settings.grid, attribute.what)
        return settings.grid
    return grids.grid_for(attribute.values if attribute.listed is None else attribute.listed, settings.bits[attribute.usage], attribute.what)


def measure_of(what, wanted, geometry, k, has_origin):
    """The errors of a quantised attribute, against the numbers that were read. `has_origin`: whether the origin of its grid is said."""
    grid = geometry.heads[k].grid
    in_floats = greatest_error(wanted, geometry.floats(k)) if grid.is_fine else None
    words = str(grid) if has_origin else f"{many(grid.bits, 'bit')}, step {grid.step_in_words}"
    return Measure(what, words, greatest_error(wanted, geometry.numbers(k)), in_floats)


def greatest_error(wanted, found):
    """The greatest difference of a component, of floats of 32 bits also as the nine digits of them that an OBJ or a text of PLY has."""
    if not wanted.size:
        return 0.0
    off = np.abs(wanted - found)
    error = float(off.max())
    if found.dtype != grids.FLOAT:
        return error
    near = off + DIGIT * np.abs(found, dtype=np.float64) >= error
    shown = np.array([DIGITS % it for it in found[near].tolist()], np.float64)
    return max(error, float(np.abs(wanted[near] - shown).max()))


def note_of_doubles(measure, read, bits, grid):
    """What is said where the origin is taken off in doubles; `bits`: those that were asked for, or None."""
    line = (f"{measure.what}: floats of 32 bits lose up to {at_least(grids.lost(read))} of these numbers, more than half a step, so they are quantised in "
            f"doubles, from the origin {' '.join('%.9g' % it for it in grid.minimum)}, which the stream keeps; drc-unpack gives them to "
            f"{at_least(measure.error)} in PLY and OBJ, and what reads floats of 32 bits to {at_least(measure.in_floats)}")
    if bits is None:
        return line
    if grid.bits > bits:
        line += f"; {grid.bits} bits in place of {bits}, since the nearest float below the least number is so far from it"
    wide = float((read.max(axis=0) - read.min(axis=0)).max()) or 1.0
    asked = wide / ((1 << bits) - 1)
    if grid.step > 1.001 * asked:
        line += f"; the step is {float(grid.step):.6g} in place of {asked:.6g}, since {grids.BITS} bits are the most"
    return line


def degenerate(geometry):
    """Which faces have two corners at one place."""
    if not geometry.heads or geometry.heads[0].usage != POSITION:
        return np.zeros(len(geometry.faces), bool)
    at = geometry.values[0]
    a, b, c = (at[geometry.faces[:, k]] for k in range(3))
    return (a == b).all(axis=1) | (b == c).all(axis=1) | (c == a).all(axis=1)


@dataclass
class Packed:
    """A stream with its map and the text that it was made of, and what is to be said."""

    stream: bytes
    map: str
    text: bytes
    geometry: Geometry
    measures: list
    notes: list


def text_of(path, settings, say=lambda what: None):
    """What `drc enc` is to be given for the mesh of a file: the geometry, its text, a line for each attribute, and what is to be said."""
    return text_of_mesh(mesh_of(path, settings, say), path, settings, say)


def mesh_of(path, settings, say):
    """The mesh of a file."""
    say("reading")
    mesh = reading.read(path, settings.cloud)
    check_count("PointLimit", "the mesh" if mesh.faces is not None else "the cloud", mesh.points, POINTS, path)
    return mesh


def text_of_mesh(mesh, path, settings, say):
    """What `drc enc` is to be given for a mesh."""
    say("quantising")
    try:
        geometry, measures, notes = quantised(mesh, settings)
    except Trouble as why:
        raise Trouble(f"{path}: {why.line}", why.status) from None
    notes = [*mesh.notes, *notes]
    names = [(it.name, names) for it, names in zip((it for it in mesh.attributes if it.usage not in settings.skip), names_of(geometry.heads)) if it.name]
    comments = [f"drc-pack column {name} as {' '.join(columns)}" for name, columns in names]
    if names:
        notes.append(f"a stream has no names of columns: {', '.join(f'{name} is {columns[0]}' for name, columns in names)}")
    if geometry.faces is not None and not settings.keep_degenerate:
        left = np.flatnonzero(degenerate(geometry))
        if len(left):
            check_rest(path, geometry, left)
            notes.append(f"{many(len(left), 'face')} of {len(geometry.faces):,} left out, with two corners at one place of the grid; --keep-degenerate keeps them")
            comments += comments_of(left, len(geometry.faces))
            geometry.faces = np.delete(geometry.faces, left, axis=0)
    if geometry.faces is not None:
        check_count("FaceLimit", "the mesh", len(geometry.faces), FACES, path)
    say("writing the text")
    return geometry, plytext.write_text(geometry, comments), measures, notes


def check_rest(path, geometry, left):
    """Refuses a mesh of which no face would be left."""
    if len(left) == len(geometry.faces):
        raise Refused("Degenerate", 0, f"{path}: refused Degenerate 0: each of {many(len(left), 'face')} has two corners at one place of the grid; "
                                       "a greater --qp may keep them apart, --keep-degenerate takes them")


def comments_of(left, count):
    """Which faces were left out, as comments of the text: numbers of the mesh's triangles, from 0."""
    rows = [left[k : k + NUMBERS_AT_ONCE] for k in range(0, len(left), NUMBERS_AT_ONCE)]
    return [f"drc-pack left out {len(left)} of {count} faces", *(f"drc-pack left out {' '.join(map(str, row))}" for row in rows)]


def pack(drc, path, settings, say=lambda what: None):
    """The mesh of a file as a stream."""
    drc.check_profile(settings.profile)
    mesh = mesh_of(path, settings, say)
    packed = pack_mesh(drc, mesh, path, settings, say)
    if settings.is_saving_told:
        packed.notes += what_is_saved(drc, mesh, path, settings, packed, say)
    return packed


def what_is_saved(drc, mesh, path, settings, packed, say):
    """Where normals are a third of a stream in profile 2 or more, a line with the bytes that profile 3 saves at the same error."""
    k = packed.geometry.first(NORMAL)
    if settings.profile != 2 or k is None or not packed.geometry.heads[k].grid or packed.geometry.heads[k].comps != 3:
        return []
    size = bytes_of(drc, packed.stream, k)
    if 3 * size < len(packed.stream) or not drc.writes_profile_three():
        return []
    bits = {**settings.bits, NORMAL: min(settings.bits[NORMAL] + 1, grids.BITS)}
    other = pack_mesh(drc, mesh, path, replace(settings, profile=3, bits=bits), say)
    saved = len(packed.stream) - len(other.stream)
    return [f"normals take {size:,} of {len(packed.stream):,} bytes; --profile 3 --qn {bits[NORMAL]} saves {saved:,} of these"] if saved > 0 else []


def bytes_of(drc, stream, k):
    """How many bytes of a stream the values of attribute k take, up to those of the next one."""
    said = drc.info(stream)
    places = [int(it) for it in re.findall(r"(?m)^attr .* at (\d+)$", said)]
    end = int(re.search(r"(?m)^end (\d+)", said)[1])
    return min([it for it in [*places, end] if it > places[k]], default=end) - places[k]


def pack_mesh(drc, mesh, path, settings, say):
    """A mesh as a stream."""
    geometry, text, measures, notes = text_of_mesh(mesh, path, settings, say)
    options = settings.enc if geometry.faces is None else with_method(settings.enc, len(geometry.faces))
    options = with_profile(options, settings.profile, geometry.faces is not None)
    if settings.keep_degenerate and geometry.faces is not None and not is_sequential(options):
        flat = int(degenerate(geometry).sum())
        if flat:
            options = sequential(options)
            notes.append(f"coded sequentially, which takes more bytes, since {many(flat, 'face has', 'faces have')} two corners at one place of the grid")
    if settings.sort and geometry.faces is not None:
        notes.append("the points keep their order, since --sort is for clouds; a mesh has that of its method")
    say("encoding")
    try:
        stream, rows = drc.enc(text, options)
        if settings.sort and geometry.faces is None:
            other, numbers = encoded_in_order(drc, geometry, options)
            if len(other) < len(stream):
                stream, rows = other, numbers
            else:
                notes.append(f"the points keep their order, in which the stream has {len(stream):,} bytes; along the curve it would have {len(other):,}")
    except Refused as why:
        raise Refused(why.word, why.number, f"{path}: {why.line}") from None
    return Packed(stream, rows, text, geometry, measures, notes)


def encoded_in_order(drc, cloud, options):
    """The stream of a cloud whose points lie along a curve, and its map, which has their numbers in the cloud."""
    order = curves.order_of(cloud.values[cloud.first(POSITION) or 0])
    stream, rows = drc.enc(plytext.write_text(Geometry(cloud.heads, [it[order] for it in cloud.values])), options)
    numbers = np.stack([order, np.zeros(len(order), np.int64)], axis=1)
    return stream, maps.joined(maps.write_map("cloud", numbers), rows.encode(), "the map of `enc`").decode()
