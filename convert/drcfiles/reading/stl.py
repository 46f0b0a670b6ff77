"""STL, binary and text: triangles. Normals of faces and attribute bytes are left out; equal corners become one point."""
import re

import numpy as np

from ..files import read as read_bytes
from ..mesh import Attribute, Mesh, merged
from ..plytext import POSITION
from ..trouble import Trouble

ROW = np.dtype([("normal", "<f4", 3), ("corners", "<f4", (3, 3)), ("rest", "<u2")])
VERTEX = re.compile(rb"vertex\s+(\S+)\s+(\S+)\s+(\S+)")


def read(path):
    data = read_bytes(path)
    declared = int.from_bytes(data[80:84], "little")
    is_text = data[:5] == b"solid" and len(data) != 84 + 50 * declared
    corners = text_corners(path, data) if is_text else binary_corners(path, data, declared)
    attributes, faces = merged([Attribute(POSITION, corners)], np.arange(len(corners)).reshape(-1, 3))
    return Mesh(attributes, faces)


def binary_corners(path, data, declared):
    if len(data) < 84 + 50 * declared:
        what = f"declares {declared:,} triangles, that is {84 + 50 * declared:,} bytes" if len(data) >= 84 else "has 84 bytes before its triangles"
        raise Trouble(f"{path} is cut: a binary STL that {what}, and here are {len(data):,}")
    return np.frombuffer(data, ROW, declared, 84)["corners"].reshape(-1, 3).astype(np.float32)


def text_corners(path, data):
    found = VERTEX.findall(data)
    at_end = data.rstrip().rpartition(b"\n")[2].strip()
    if len(found) % 3 or not at_end.startswith(b"endsolid"):
        raise Trouble(f"{path} is cut: a text STL that ends at line {data.count(b'%c' % 10) + 1} without `endsolid`, behind {len(found):,} corners")
    try:
        return np.array([[float(word) for word in row] for row in found], np.float64).reshape(-1, 3)
    except ValueError as why:
        raise Trouble(f"{path}: a corner has a word that is no number ({why})") from None
