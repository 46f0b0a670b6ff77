#!/usr/bin/python3
"""Shows that convert/drc-gltf makes one file of a .gltf with its buffers and images, and leaves out no face that joints or morph targets may
open.

usage: tests/convert/test_scenes.py PROGRAM

PROGRAM is the built `drc`. The last line printed is 'N passed, M failed'; the exit status is 0 where M is 0.
"""
import base64
import json
import shutil
import struct
import subprocess
import zlib

import mesh_cases  # noqa: F401  (which says where numpy is missing)
import numpy as np
from drcfiles.glb import read_glb
from mesh_cases import MODELS, run

DRACO = "KHR_draco_mesh_compression"
KINDS = {"u1": 5121, "<u2": 5123, "<u4": 5125, "<f4": 5126}
JPEG = b"\xff\xd8\xff\xe0" + bytes(range(40))


def picture(red):
    """A PNG of one pixel."""
    part = lambda kind, data: struct.pack(">I", len(data)) + kind + data + struct.pack(">I", zlib.crc32(kind + data))
    return b"\x89PNG\r\n\x1a\n" + part(b"IHDR", struct.pack(">IIBBBBB", 1, 1, 8, 2, 0, 0, 0)) + part(b"IDAT", zlib.compress(bytes([0, red, 0, 0]))) + part(b"IEND", b"")


class Scene:
    """A .gltf of one primitive whose accessors lie in the buffers that are named."""

    def __init__(self, buffers=1):
        self.buffers = [b""] * buffers
        self.json = {"asset": {"version": "2.0"}, "scene": 0, "scenes": [{"nodes": [0]}], "nodes": [{"mesh": 0}], "accessors": [], "bufferViews": []}

    def accessor(self, rows, kind, of, buffer=0, **more):
        rows = np.array(rows, kind)
        self.buffers[buffer] += b"\0" * (-len(self.buffers[buffer]) % 4)
        self.json["bufferViews"].append({"buffer": buffer, "byteOffset": len(self.buffers[buffer]), "byteLength": rows.nbytes})
        self.json["accessors"].append({"bufferView": len(self.json["bufferViews"]) - 1, "componentType": KINDS[kind], "count": len(rows), "type": of, **more})
        self.buffers[buffer] += rows.tobytes()
        return len(self.json["accessors"]) - 1

    def save(self, folder, primitive, **more):
        folder.mkdir()
        self.json.update(meshes=[{"primitives": [primitive]}], **more)
        self.json["buffers"] = [{"byteLength": len(data), "uri": f"part{k}.bin"} for k, data in enumerate(self.buffers)]
        for k, data in enumerate(self.buffers):
            (folder / f"part{k}.bin").write_bytes(data)
        (folder / "scene.gltf").write_text(json.dumps(self.json))
        return folder / "scene.gltf"


def plate(side=5, wide=1.0):
    at = lambda i, j: j * (side + 1) + i
    points = [(wide * i, wide * j, wide * (i * j % 3)) for j in range(side + 1) for i in range(side + 1)]
    return points, [it for j in range(side) for i in range(side) for it in ((at(i, j), at(i + 1, j), at(i + 1, j + 1)), (at(i, j), at(i + 1, j + 1), at(i, j + 1)))]


def bounds(points):
    return {"min": np.array(points, np.float32).min(axis=0).tolist(), "max": np.array(points, np.float32).max(axis=0).tolist()}


def image_of(document, binary, k):
    view = document["bufferViews"][document["images"][k]["bufferView"]]
    return binary[view["byteOffset"] :][: view["byteLength"]]


def positions(document, binary):
    """The corners of all triangles, as rows of bytes, sorted."""
    found = []
    for primitive in (it for mesh in document["meshes"] for it in mesh["primitives"]):
        tables = []
        for number in (primitive["attributes"]["POSITION"], primitive["indices"]):
            accessor = document["accessors"][number]
            view = document["bufferViews"][accessor["bufferView"]]
            kind = {5126: "<f4", 5125: "<u4", 5123: "<u2", 5121: "u1"}[accessor["componentType"]]
            wide = 3 if accessor["type"] == "VEC3" else 1
            tables.append(np.frombuffer(binary, kind, wide * accessor["count"], view.get("byteOffset", 0) + accessor.get("byteOffset", 0)).reshape(-1, wide))
        found += [b"".join(tables[0][k].tobytes() for k in face) for face in tables[1].reshape(-1, 3)]
    return len(found)


def one_file(tests):
    """Three buffers, and images beside it, in a data URI and in a buffer, become one .glb that stands alone in a folder of its own."""
    scene = Scene(3)
    points, faces = plate()
    primitive = {"attributes": {"POSITION": scene.accessor(points, "<f4", "VEC3", 1, **bounds(points))}, "indices": scene.accessor(np.ravel(faces), "<u2", "SCALAR", 2), "material": 0}
    turns = scene.accessor([[0, 0, 0, 1], [0, 1, 0, 0]], "<f4", "VEC4", 2)
    times = scene.accessor([0.0, 2.0], "<f4", "SCALAR", 1, min=[0.0], max=[2.0])
    images = [{"uri": "red%20one.png", "name": "red"}, {"uri": "data:image/png;base64," + base64.b64encode(picture(7)).decode()}, {"uri": "photo.jpg", "extras": {"uri": "kept"}}, {"uri": "gone.png"},
              {"uri": "https://example.org/x.png"}, {"uri": "strange.bin"}]
    source = scene.save(tests.folder / "scene", primitive, images=images, textures=[{"source": k} for k in range(6)], materials=[{"pbrMetallicRoughness": {"baseColorTexture": {"index": 0}}}],
                        animations=[{"channels": [{"sampler": 0, "target": {"node": 0, "path": "rotation"}}], "samplers": [{"input": times, "output": turns}]}])
    for name, data in (("red one.png", picture(255)), ("photo.jpg", JPEG), ("strange.bin", b"strange")):
        (source.parent / name).write_bytes(data)
    there = tests.folder / "alone"
    for command, given, words in (("pack", source, []), ("pack", source, ["--method", "seq"]), ("unpack", there / "small.glb", [])):
        title = f"one file {command} {' '.join(words)}"
        there.mkdir(exist_ok=True)
        out = there / ("small.glb" if command == "pack" else "plain.glb")
        ran = tests.run("drc-gltf", command, given, out, "--force", *words)
        tests.tell(ran.returncode == 0, f"{title}: {ran.stderr.decode()}")
        if ran.returncode:
            return
        tests.tell(sorted(it.name for it in there.iterdir()) == (["small.glb"] if command == "pack" else ["plain.glb", "small.glb"]), f"{title}: one file")
        document, binary = read_glb(out.read_bytes())
        tests.tell(len(document["buffers"]) == 1 and "uri" not in document["buffers"][0] and document["buffers"][0]["byteLength"] <= len(binary), f"{title}: one buffer")
        tests.tell(all(it["buffer"] == 0 and it.get("byteOffset", 0) + it["byteLength"] <= document["buffers"][0]["byteLength"] for it in document["bufferViews"]), f"{title}: its views are in it")
        tests.tell([image_of(document, binary, k) for k in range(3)] == [picture(255), picture(7), JPEG], f"{title}: the bytes of its images")
        tests.tell([it.get("mimeType") for it in document["images"]] == ["image/png", "image/png", "image/jpeg", None, None, None], f"{title}: their kinds")
        tests.tell(document["images"][0]["name"] == "red" and document["images"][2]["extras"] == {"uri": "kept"} and not any("uri" in it for it in document["images"][:3]), f"{title}: all else of images")
        tests.tell([it.get("uri") for it in document["images"][3:]] == ["gone.png", "https://example.org/x.png", "strange.bin"], f"{title}: images that can't be had stay named")
        if command == "pack":
            said = ran.stderr.decode()
            tests.tell(all(f"images[{k}] stays a file of its own" in said for k in (3, 4, 5)), f"{title}: a line says so: {said}")
        for sampler, wanted in (("input", [0.0, 2.0]), ("output", [0, 0, 0, 1, 0, 1, 0, 0])):
            accessor = document["accessors"][document["animations"][0]["samplers"][0][sampler]]
            at = document["bufferViews"][accessor["bufferView"]].get("byteOffset", 0) + accessor.get("byteOffset", 0)
            tests.tell(np.frombuffer(binary, "<f4", len(wanted), at).tolist() == wanted, f"{title}: the animation's {sampler}")
        if command == "unpack":
            tests.tell(positions(document, binary) == len(faces), f"{title}: its triangles")
    if not MODELS.exists():
        tests.skip("models as one file", "Debian's assimp-testmodels")
        return
    for name in ("glTF2/BoxTextured-glTF/BoxTextured.gltf", "glTF2/ClearCoat-glTF/ClearCoatTest.gltf"):
        alone, folder = tests.folder / "model", MODELS / name
        alone.mkdir()
        ran = tests.run("drc-gltf", "pack", folder, alone / "small.glb")
        plain = tests.run("drc-gltf", "unpack", alone / "small.glb", alone / "plain.glb")
        tests.tell(ran.returncode == plain.returncode == 0 and not ran.stderr, f"{name}: {ran.stderr.decode()} {plain.stderr.decode()}")
        document, binary = read_glb((alone / "plain.glb").read_bytes())
        given = json.loads(folder.read_text())
        wanted = [(folder.parent / it["uri"]).read_bytes() for it in given["images"]]
        tests.tell([image_of(document, binary, k) for k in range(len(wanted))] == wanted, f"{name}: its images, byte for byte")
        if shutil.which("assimp"):
            shutil.rmtree(tests.folder / "elsewhere", ignore_errors=True)
            (tests.folder / "elsewhere").mkdir()
            shutil.move(alone / "plain.glb", tests.folder / "elsewhere/x.glb")
            said = subprocess.run(["assimp", "info", str(tests.folder / "elsewhere/x.glb")], stdout=subprocess.PIPE, stderr=subprocess.STDOUT, check=False).stdout.decode("utf-8", "replace")
            tests.tell(f"Textures (embed.):  {len(wanted)}" in said, f"{name}: assimp finds the textures in it: {said[-900:]}")
        shutil.rmtree(alone)


def opened(tests):
    """A face with two corners at one place stays where joints or morph targets may move them apart."""
    points, faces = plate()
    more = faces + [(0, 36, 1), (0, 37, 7)]  # points 36 and 37 lie where point 0 lies
    rows = points + [points[0], points[0]]
    for title, other, kept in (("joints that differ", [1, 0, 0, 0], True), ("the same joints", [0, 0, 0, 0], False)):
        scene = Scene()
        joints = [[0, 0, 0, 0]] * 36 + [other, [0, 0, 0, 0]]
        attributes = {"POSITION": scene.accessor(rows, "<f4", "VEC3", **bounds(rows)), "JOINTS_0": scene.accessor(joints, "u1", "VEC4"), "WEIGHTS_0": scene.accessor([[1, 0, 0, 0]] * 38, "<f4", "VEC4")}
        source = scene.save(tests.folder / title.replace(" ", "-"), {"attributes": attributes, "indices": scene.accessor(np.ravel(more), "<u2", "SCALAR")})
        out = source.parent / "out.glb"
        ran = tests.run("drc-gltf", "pack", source, out)
        document, _ = read_glb(out.read_bytes())
        count = document["accessors"][document["meshes"][0]["primitives"][0]["indices"]]["count"] // 3
        tests.tell(ran.returncode == 0 and count == len(more) - (0 if kept else 2), f"{title}: {count} faces: {ran.stderr.decode()}")
        tests.tell(("that joints move apart" in ran.stderr.decode()) == kept and ("left out 2 of" in ran.stderr.decode()) != kept, f"{title}: a line says so: {ran.stderr.decode()}")
    scene = Scene()
    attributes = {"POSITION": scene.accessor(rows, "<f4", "VEC3", **bounds(rows))}
    target = {"POSITION": scene.accessor([[0, 0, k] for k in range(38)], "<f4", "VEC3", **bounds([[0, 0, 0], [0, 0, 37]]))}
    source = scene.save(tests.folder / "morph", {"attributes": attributes, "indices": scene.accessor(np.ravel(more), "<u2", "SCALAR"), "targets": [target]})
    out = source.parent / "out.glb"
    ran = tests.run("drc-gltf", "pack", source, out)
    document, _ = read_glb(out.read_bytes())
    count = document["accessors"][document["meshes"][0]["primitives"][0]["indices"]]["count"] // 3
    tests.tell(ran.returncode == 0 and count == len(more) and "left out" not in ran.stderr.decode(), f"morph targets keep all faces: {ran.stderr.decode()}")
    scene = Scene()
    flat = [(0, 0, 0)] * 3
    attributes = {"POSITION": scene.accessor(flat, "<f4", "VEC3", **bounds(flat))}
    source = scene.save(tests.folder / "flat", {"attributes": attributes, "indices": scene.accessor([0, 1, 2], "<u2", "SCALAR")})
    ran = tests.run("drc-gltf", "pack", source, source.parent / "out.glb")
    tests.tell(ran.returncode == 0 and "left as it is: each of its faces" in ran.stderr.decode(), f"a primitive of such faces alone stays: {ran.stderr.decode()}")
    ran = tests.run("drc-gltf", "pack", source, source.parent / "kept.glb", "--keep-degenerate")
    tests.tell(ran.returncode == 0 and "sequentially" in ran.stderr.decode() and "1 of 1 primitives coded" in ran.stdout.decode(), f"or is kept: {ran.stderr.decode()} {ran.stdout.decode()}")


run(one_file, opened)
