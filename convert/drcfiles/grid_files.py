"""The grid of the positions of a packed file, for other files to be packed on."""
import pathlib

import numpy as np

from . import files, grids, plytext
from .draco_primitives import coded_positions
from .gltf import Gltf
from .plytext import POSITION
from .trouble import Refused, Trouble


def grid_of(drc, path):
    """The grid that all positions of a stream, or of the streams of a glTF file, have; None for no path."""
    if path is None:
        return None
    try:
        streams = coded_positions(Gltf(path)) if is_gltf(path) else [(None, files.read(path))]
        found = [grid_of_stream(drc, stream, id) for id, stream in streams]
    except Refused as why:
        raise Refused(why.word, why.number, f"{path}: {why.line}") from None
    except Trouble as why:
        raise Trouble(f"{path}: {why.line}" if str(path) not in why.line else why.line, why.status) from None
    if not found:
        raise Trouble(f"{path}: no primitive of it is coded, so it has no grid")
    names = {str(it) for it in found}
    if len(names) > 1:
        raise Trouble(f"{path}: its streams have {len(names)} grids of positions, and one is due")
    return found[0]


def is_gltf(path):
    return pathlib.Path(path).suffix.lower() in (".glb", ".gltf")


def grid_of_stream(drc, stream, id):
    """The grid of the first positions of a stream, or of its attribute with this id."""
    geometry = plytext.read_text(drc.dec(stream))
    k = geometry.first(POSITION) if id is None else next((k for k, it in enumerate(geometry.heads) if it.id == id), None)
    if k is None:
        raise Trouble("it has no positions")
    grid = geometry.heads[k].grid
    if grid is None or not (0 < grid.step < np.inf and np.isfinite(grid.minimum).all()):
        raise Trouble("its positions have no grid")
    return grids.grid_again(grid, int(geometry.values[k].max(initial=0)))
