"""A glTF document of one net of triangles, for tests; numpy is needed."""
import pathlib
import sys

import numpy as np

HERE = pathlib.Path(__file__).resolve().parent
sys.path[:0] = [str(HERE.parents[1] / "convert"), str(HERE.parent / "shared")]

from drcfiles.glb import write_glb  # noqa: E402
from shapes import lattice  # noqa: E402

POINTS, FACES = lattice(5)


def scene():
    """The document, and the bytes of its buffer."""
    at, corners = np.array(POINTS, "<f4"), np.array(FACES, "<u2").ravel()
    binary = at.tobytes() + corners.tobytes()
    accessors = [{"bufferView": 0, "componentType": 5126, "count": len(at), "type": "VEC3", "min": at.min(axis=0).tolist(), "max": at.max(axis=0).tolist()},
                 {"bufferView": 1, "componentType": 5123, "count": corners.size, "type": "SCALAR"}]
    views = [{"buffer": 0, "byteOffset": 0, "byteLength": at.nbytes}, {"buffer": 0, "byteOffset": at.nbytes, "byteLength": corners.nbytes}]
    return {"asset": {"version": "2.0"}, "scene": 0, "scenes": [{"nodes": [0]}], "nodes": [{"mesh": 0}], "accessors": accessors, "bufferViews": views,
            "buffers": [{"byteLength": len(binary)}], "meshes": [{"primitives": [{"attributes": {"POSITION": 0}, "indices": 1}]}]}, binary


def glb(document, binary):
    return write_glb(document, binary)
