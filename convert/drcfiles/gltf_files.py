"""Whole files of glTF: their primitives packed as streams, or unpacked, and the file written. A command line's words for it."""
import os
from dataclasses import dataclass, field

from . import files
from .draco_primitives import Packing, Unpacking
from .gltf import DRACO, Gltf, is_glb
from .mesh import at_least
from .grids import Grid
from .packing import OCTAHEDRAL, add_choices, add_degenerate, add_grids, add_profile, choices_of, grid_words, normal_bits
from .trouble import Trouble

BITS = {  # what is quantised, and its bits without the option
    "qp": ("positions", 14),
    "qn": ("normals and of each component of tangents", 10),
    "qt": ("texture coordinates", 12),
    "qc": ("colours that are floats", 10),
    "qg": ("weights and other floats", 12),
}


def bits(text):
    if not text.isdecimal() or not 1 <= int(text) <= 30:
        raise ValueError
    return int(text)


def add_words(words):
    """The options of packing, for a command line."""
    steps = words.add_mutually_exclusive_group()
    for option, (what, default) in BITS.items():
        group = steps if option == "qp" else words
        is_of_normals = option == "qn"
        more = f"{OCTAHEDRAL}, and {default} by --profile 2" if is_of_normals else default
        group.add_argument(f"--{option}", type=bits, default=None if is_of_normals else default, metavar="BITS", help=f"bits of {what}, 1 to 30 (without it {more})")
    add_grids(steps)
    words.add_argument("--own-grids", action="store_true", help="a grid of its own for the positions of each primitive, which may part at their borders; "
                       "without it one for all primitives of a mesh")
    add_degenerate(words)
    add_profile(words, None, "all readers of the extension take it; 2 has plain normals")
    add_choices(words, "faces of a primitive on")


@dataclass
class Settings:
    """How primitives are packed: bits by option, the options of `enc`, what becomes of degenerate faces, for positions a step or the grid of
    another file, whether each primitive has a grid of its own, and the profile: by 3 normals are octahedral."""

    bits: dict = field(default_factory=lambda: {option: default for option, (_, default) in BITS.items()})
    enc: tuple = ()
    keep_degenerate: bool = False
    step: float = None
    grid: Grid = None
    own_grids: bool = False
    profile: int = 3

    def __str__(self):
        words = [f"--{name} {self.bits[name]}" for name in BITS] + ["--keep-degenerate"] * self.keep_degenerate + ["--own-grids"] * self.own_grids + [f"--profile {self.profile}"]
        return " ".join([*words, *grid_words(self), *self.enc])


def settings_of(given, drc, grid=None):
    """The settings of a command line, with the grid of the file that it names. Without a word the profile is 3 where the program writes it."""
    profile = given.profile or (3 if drc.writes_profile_three() else 2)
    kept = {**{name: getattr(given, name) for name in BITS}, "qn": normal_bits(given, profile)}
    return Settings(kept, choices_of(given), given.keep_degenerate, given.step, grid, given.own_grids, profile)


@dataclass
class Changed:
    """What became of a file: how many of its primitives were coded or decoded, its bytes with its buffers, and the positions' error and grids."""

    coded: int
    primitives: int
    before: int
    after: int
    error: float
    grids: list

    def positions(self):
        """What became of positions, in words."""
        line = f"positions are at most {at_least(self.error)} off"
        if len(self.grids) == 1:
            return f"{line}: {self.grids[0]}"
        steps = sorted(float(it.step) for it in self.grids)
        return f"{line}, on {len(steps)} grids, of steps from {steps[0]:.6g} to {steps[-1]:.6g}" if steps else line


def changed(drc, source, out, settings, put, tell=lambda line: None, progress=None):
    """Packs the primitives of a file, or without settings unpacks them; `put` writes the files that it is given, and knows those that were
    read."""
    try:
        return made(Gltf(source), drc, source, out, settings, put, tell, progress)
    except RecursionError as why:
        raise Trouble("the JSON is nested too deeply") from why
    except UnicodeEncodeError as why:
        raise Trouble("a text of the JSON, or the name of the output, isn't Unicode") from why


def made(gltf, drc, source, out, settings, put, tell, progress):
    is_pack = settings is not None
    if is_pack:
        drc.check_profile(settings.profile)
    before = gltf.size + sum(len(it.data) for it in gltf.buffers if it.place == "beside")
    work = Packing(gltf, drc, settings, tell) if is_pack else Unpacking(gltf, drc)
    groups = work.groups()
    if progress:
        progress.total = len(groups)
    for where, items in groups:
        if progress:
            progress.step(where)
        (work.pack if is_pack else work.unpack)(where, items)
    if is_pack:
        work.tell_of_flat()
    if work.coded:
        gltf.use(DRACO, is_pack)
    if is_glb(out):
        for line in gltf.put_images_in():
            tell(line)
    if gltf.added:
        gltf.finish()
    if is_glb(out):
        gltf.join_buffers()
    if gltf.is_open and work.coded:
        tell(f"the old data stays in the file, since {', '.join(gltf.unknown)} may refer to it")
    wanted = gltf.files_of(out)
    put(wanted, gltf.inputs)
    images = gltf.images_beside()
    if images and (files.is_standard_output(out) or os.path.dirname(os.path.realpath(out)) != os.path.dirname(os.path.realpath(source))):
        tell(f"images stay beside the input and aren't copied: {', '.join(images)}")
    total = sum(len(mesh["primitives"]) for mesh in gltf.table("meshes"))
    after = sum(map(len, wanted.values()))
    return Changed(work.coded, total, before, after, *((work.error, list(work.grids.values())) if is_pack else (0.0, [])))
