"""Reading meshes of floats by the file's ending.

OBJ, PLY, STL, OFF and clouds (XYZ, PCD) are read here: assimp 5.2 rounds one decimal number of a hundred to a neighbour of the nearest
float, and meshio 5.0 refuses an OBJ with seams of texture coordinates, a PLY whose faces are named `vertex_index`, and an OFF with quads,
colours or counts behind its keyword, and takes bytes of a binary PLY for signed ones. VTK, Gmsh and other formats of FEM are meshio's; all
other endings, glTF and FBX among them, are those of
the command line of assimp (its Python binding, `pyassimp`, crashes in Debian 12), which writes the floats of its scene
as a text PLY.
"""
import pathlib

from ..mesh import check_range
from ..trouble import Trouble
from . import clouds, obj, off, others, ply, stl

READERS = {".obj": obj.read, ".ply": ply.read, ".stl": stl.read, ".off": off.read, ".pcd": clouds.read_pcd,
           **{ending: clouds.read_xyz for ending in clouds.XYZ}, **{ending: others.read_by_meshio for ending in others.MESHIO}}
COMMON = (".glb", ".gltf", ".fbx", ".dae", ".3ds", ".x3d", ".blend", ".lwo", ".ase", ".ac", ".3mf", ".amf")  # of those that assimp reads


def read(path, is_cloud=False):
    """The mesh of a file, or a cloud where that is asked for, or the file is a PLY that declares no faces, an XYZ or a PCD."""
    reader = READERS.get(pathlib.Path(path).suffix.lower(), others.read_by_assimp)
    mesh = reader(path)
    if not mesh.points:
        raise Trouble(f"{path}: no points")
    if is_cloud:
        mesh.faces = None
    elif mesh.faces is not None:
        if not len(mesh.faces):
            raise Trouble(f"{path}: no faces; --cloud takes the points as a cloud")
        check_range(mesh.faces, mesh.points, path)
    return mesh


def is_common(path):
    """Whether a file's ending is one that stands for meshes in a folder of many files."""
    ending = pathlib.Path(path).suffix.lower()
    return ending in READERS or ending in COMMON
