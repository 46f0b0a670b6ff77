"""A mesh from standard input or a pipe, for readers that need a file whose ending says its format."""
import contextlib
import os
import re
import struct
import tempfile

from . import files
from .trouble import BAD_WORDS, Trouble

BEGINNINGS = tuple((re.compile(it), ending) for it, ending in (
    (rb"ply\b", ".ply"), (rb"glTF", ".glb"), (rb"solid\b", ".stl"), (rb"\{", ".gltf"), (rb"(ST)?C?N?4?n?OFF\b", ".off"), (rb"# \.PCD|VERSION", ".pcd")))
STL_HEAD, STL_FACE = 84, 50  # bytes of a binary STL


def ending_of(data):
    """The ending of a file's format by what it begins with; None where nothing tells it."""
    start = data[:1024].lstrip(b"\xef\xbb\xbf \t\r\n")
    found = next((ending for beginning, ending in BEGINNINGS if beginning.match(start)), None)
    if len(data) >= STL_HEAD and len(data) == STL_HEAD + STL_FACE * struct.unpack_from("<I", data, STL_HEAD - 4)[0]:
        return ".stl"
    is_obj = any(line.split(None, 1)[:1] == [b"v"] for line in data[:65536].splitlines())
    return found or (".obj" if is_obj else None)


@contextlib.contextmanager
def as_file(path, ending=None):
    """The path of a mesh; of standard input or a pipe that of a file with what it has, which goes when the work is done."""
    if not files.is_standard_input(path) and (os.path.isfile(path) or not os.path.exists(path)):
        if ending:
            raise Trouble("--format says what standard input or a pipe has; the format of a file is said by its ending", BAD_WORDS)
        yield path
        return
    data = files.read(path)
    ending = f".{ending.lstrip('.').lower()}" if ending else ending_of(data)
    if not ending:
        raise Trouble(f"{path}: nothing in it tells its format; --format names it", BAD_WORDS)
    with tempfile.TemporaryDirectory() as folder:
        name = os.path.join(folder, f"input{ending}")
        with open(name, "wb") as file:
            file.write(data)
        try:
            yield name
        except Trouble as why:
            why.line = why.line.replace(name, str(path))
            raise
