"""Formats that other programs read: meshio (VTK, Gmsh and the like) and the command line of assimp (FBX, glTF, Collada and many more)."""
import contextlib
import functools
import io
import json
import pathlib
import re
import shutil
import subprocess
import tempfile

import numpy as np

from .. import files, glb
from ..mesh import Attribute, Mesh, many, merged, single
from ..plytext import GENERIC, POSITION, TEXTURE
from ..polygons import split
from ..trouble import MISSING, Trouble
from . import ply

MESHIO = (".vtk", ".vtu", ".msh", ".xdmf", ".inp", ".bdf", ".nas", ".med")
LENGTH = 200  # of what another program said
FLAT = {"triangle": 3, "quad": 4}  # the cells that are faces


def in_one_line(text):
    return " ".join(text.split())[:LENGTH]


def read_by_meshio(path):
    try:
        import meshio
    except ImportError:
        raise Trouble(f"{path}: meshio reads this format and is missing: apt-get install python3-meshio", MISSING) from None
    if not pathlib.Path(path).is_file():
        raise Trouble(f"{path} can't be read: no such file", 3)
    said = io.StringIO()
    try:
        with contextlib.redirect_stdout(said), contextlib.redirect_stderr(said):
            found = meshio.read(path)
    except (Exception, SystemExit) as why:  # meshio raises whatever its parts do, and ends the program for a bad file
        raise Trouble(f"{path}: meshio can't read it ({in_one_line(said.getvalue()) or in_one_line(str(why)) or type(why).__name__})") from None
    counts, corners = [np.zeros(0, np.int64)], [np.zeros(0, np.int64)]
    left = []
    for block in found.cells:
        if block.type in FLAT or block.type == "polygon":
            table = np.asarray(block.data, np.int64)
            counts.append(np.full(len(table), table.shape[1]))
            corners.append(table.ravel())
        else:
            left.append(f"{len(block.data):,} cells of type {block.type} left out")
    places = np.asarray(found.points, np.float64)
    if places.ndim != 2 or places.shape[1] not in (2, 3):
        raise Trouble(f"{path}: the points have {places.shape[-1]} coordinates")
    if places.shape[1] == 2:
        places = np.concatenate([places, np.zeros((len(places), 1))], axis=1)
    data = [f"{name} of {of}" for of, tables in (("points", found.point_data), ("cells", found.cell_data)) for name in tables]
    if data:
        left.append(f"data left out: {', '.join(data)}")
    faces, notes = split(np.concatenate(counts), np.concatenate(corners), places)
    return Mesh([Attribute(POSITION, places)], faces, left + notes)


@functools.lru_cache(maxsize=None)
def endings_of_assimp():
    """The endings that assimp reads; none where it is missing."""
    if not shutil.which("assimp"):
        return frozenset()
    ran = subprocess.run(["assimp", "listext"], stdout=subprocess.PIPE, stderr=subprocess.DEVNULL, check=False)
    return frozenset(it.strip().lstrip("*") for it in ran.stdout.decode().split(";"))


def read_by_assimp(path):
    """The meshes of a scene as one, each where the scene's nodes put it, by way of a text PLY, whose nine digits are the floats themselves.

    The binary PLY of assimp 5.2 isn't used: it has colours as floats where its header says bytes."""
    file = pathlib.Path(path)
    if not file.is_file():
        raise Trouble(f"{path} can't be read: no such file", 3)
    if not shutil.which("assimp"):
        raise Trouble(f"{path}: assimp reads this format and is missing: apt-get install assimp-utils", MISSING)
    if file.suffix.lower() not in endings_of_assimp():
        raise Trouble(f"{path}: the ending {file.suffix or '(none)'} is that of no format that is read here")
    if file.suffix.lower() == ".glb":
        try:
            glb.read_glb(files.read(path))  # assimp doesn't say where a file is cut
        except Trouble as why:
            raise Trouble(f"{path}: {why.line}", why.status) from None
    with tempfile.TemporaryDirectory() as folder:
        made = pathlib.Path(folder) / "mesh.ply"
        ran = subprocess.run(["assimp", "export", str(file.resolve()), str(made), "-fply", "-ptv"],
                             stdout=subprocess.PIPE, stderr=subprocess.STDOUT, stdin=subprocess.DEVNULL, check=False)
        if ran.returncode or not made.exists():
            said = [it for it in ran.stdout.decode("utf-8", "replace").splitlines() if "rror" in it or "ailed" in it]
            raise Trouble(f"{path}: assimp can't read it ({in_one_line(' '.join(said[:1])) or f'status {ran.returncode}'})")
        try:
            mesh = ply.read(made)
        except Trouble as why:
            raise Trouble(why.line.replace(str(made), f"{path}, as assimp reads it"), why.status) from None
    for it in mesh.attributes:
        if it.values.dtype == np.float64:
            it.values = single(it.values)  # assimp's numbers are floats of 32 bits, each written in nine digits
        if it.usage == TEXTURE and file.suffix.lower() in (".glb", ".gltf"):
            it.values[:, 1] = 1 - it.values[:, 1]  # assimp counts them from the bottom, glTF from the top: turned back, as the file has them
    left = [it.what for it in mesh.attributes if it.usage == GENERIC]
    if file.suffix.lower() in (".glb", ".gltf"):
        mesh.notes = [it for it in mesh.notes if "texture" not in it]  # which are counted below
    mesh.notes += left_of(file)
    if left:
        mesh.attributes = [it for it in mesh.attributes if it.usage != GENERIC]
        mesh.notes.append(f"further columns of assimp left out: {' '.join(left)}")
    if mesh.faces is not None and len(mesh.faces):
        mesh.attributes, mesh.faces = merged(mesh.attributes, mesh.faces)
    return mesh


COUNTED = ("materials", "textures", "images", "animations", "skins", "cameras")
IN_GLTF = {"POSITION", "NORMAL", "TEXCOORD_0", "COLOR_0"}
BY_ASSIMP = {"Materials": "material", "Textures (embed.)": "embedded texture", "Animations": "animation", "Cameras": "camera", "Lights": "light", "Bones": "bone"}


def left_of(file):
    """What is said of a scene's parts that a stream has no room for."""
    if file.suffix.lower() in (".glb", ".gltf"):
        left = left_of_gltf(files.read(file))
        return [f"left out, since a stream has no room for it (drc-gltf pack keeps it): {', '.join(left)}"] if left else []
    ran = subprocess.run(["assimp", "info", str(file.resolve())], stdout=subprocess.PIPE, stderr=subprocess.STDOUT, stdin=subprocess.DEVNULL, check=False)
    found = dict(re.findall(r"^([\w .()]+?): +(\d+)$", ran.stdout.decode("utf-8", "replace"), re.M))
    left = [many(int(found[name]), one) for name, one in BY_ASSIMP.items() if int(found.get(name, 0))]
    return [f"left out, since a stream has no room for it, as assimp counts: {', '.join(left)}"] if left else []


def left_of_gltf(data):
    """The parts of a glTF document beside its triangles, by their numbers, and further attributes by their names."""
    try:
        document = glb.read_glb(data)[0] if data[:4] == b"glTF" else json.loads(data.decode("utf-8-sig"))
    except (ValueError, RecursionError):
        return []
    document = document if isinstance(document, dict) else {}
    lists = {name: document[name] for name in (*COUNTED, "meshes") if isinstance(document.get(name), list)}
    left = [many(len(lists[name]), name[:-1]) for name in COUNTED if lists.get(name)]
    primitives = [it for mesh in lists.get("meshes", ()) if isinstance(mesh, dict) for it in mesh.get("primitives") or () if isinstance(it, dict)]
    morphed, others = (sum(bool(is_so(it)) for it in primitives) for is_so in (lambda it: it.get("targets"), lambda it: it.get("mode", 4) < 4))
    left += [f"the morph targets of {many(morphed, 'primitive')}"] if morphed else []
    left += [f"{many(others, 'primitive')} of points or lines"] if others else []
    names = sorted({name for it in primitives for name in (it.get("attributes") or {})} - IN_GLTF)
    return left + ([f"attributes {' '.join(names)}"] if names else [])
