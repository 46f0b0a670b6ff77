"""glTF 2.0 documents, as .gltf with their buffers or as GLB: reading accessors, and changing buffer views while all else stays as it is.

A file may use extensions that this module doesn't know, and these may refer to accessors and buffer views. In such a file nothing is taken
out and nothing is renumbered (`is_open`): what is new is put at the ends."""
import base64
import binascii
import collections
import copy
import json
import pathlib
import re
import urllib.parse

import numpy as np

from .files import is_standard_output, parts_of, read
from .glb import read_glb, write_glb
from .trouble import Trouble

DRACO = "KHR_draco_mesh_compression"
# Extensions that refer to no accessor (but for the one that `count_users` knows), and to buffer views by a member `bufferView` alone.
KNOWN = re.compile(
    r"KHR_(draco_mesh_compression|mesh_quantization|lights_punctual|materials_\w+|texture_\w+|xmp\w*|animation_pointer|node_\w+)"
    r"|EXT_(texture_\w+|lights_\w+|mesh_gpu_instancing|mesh_features)|MSFT_texture_dds|ADOBE_materials_\w+|VRMC?(_\w+)?"
)
# Extensions of a primitive that depend on no order of points.
OF_PRIMITIVES = {DRACO, "KHR_materials_variants", "EXT_mesh_features"}
COMPONENTS = {5120: np.int8, 5121: np.uint8, 5122: np.int16, 5123: np.uint16, 5125: np.uint32, 5126: np.float32}
COMPONENT_OF = {np.dtype(kind): number for number, kind in COMPONENTS.items()}
ROWS = {"SCALAR": 1, "VEC2": 2, "VEC3": 3, "VEC4": 4}
POINT_DATA, INDEX_DATA = 34962, 34963  # targets of buffer views
IMAGES = [  # by how their bytes begin
    (rb"\x89PNG\r\n\x1a\n", "image/png"),
    (rb"\xff\xd8\xff", "image/jpeg"),
    (rb"RIFF....WEBP", "image/webp"),
    (rb"\xabKTX 20\xbb", "image/ktx2"),
    (rb"DDS ", "image/vnd-ms.dds"),
]


class Buffer:
    """The bytes of a buffer (None where it has none of its own), and where they stood: in the JSON, in a file beside it, or in the GLB."""

    def __init__(self, json, data, place="glb"):
        self.json, self.data, self.place = json, data, place
        self.is_changed = False


class Gltf:
    """A document: `json`, and for each buffer its bytes (None where it has none of its own)."""

    def __init__(self, path):
        self.path = pathlib.Path(path)
        data = read(path)
        self.size = len(data)
        self.is_glb = data[:4] == b"glTF"
        self.json, binary = read_glb(data) if self.is_glb else (read_json(data), None)
        self.inputs = parts_of(path)
        self.buffers = [self.buffer(k, binary) for k in range(len(self.table("buffers")))]
        for name in ("extensionsUsed", "extensionsRequired"):
            held = self.json.get(name, [])
            if not isinstance(held, list) or not all(isinstance(it, str) for it in held):
                raise Trouble(f"{name} isn't a list of names")
        self.unknown = sorted(it for it in self.json.get("extensionsUsed", []) if not KNOWN.fullmatch(it))
        self.is_open = bool(self.unknown)
        for k in range(len(self.table("bufferViews"))):
            self.check_view(k)
        self.added = {}  # the bytes of each new buffer view, by its number
        self.freed = set()  # buffer views that an accessor no longer names
        self.users = self.count_users()

    # Members of the JSON, each tested as it is read.

    def table(self, name):
        items = self.json.get(name, [])
        if not isinstance(items, list) or not all(isinstance(it, dict) for it in items):
            raise Trouble(f"{name} isn't a list of objects")
        return items

    def item(self, name, number, where):
        items = self.table(name)
        if not is_count(number) or number >= len(items):
            raise Trouble(f"{where}: {name}[{number}] isn't there")
        return items[number]

    def buffer(self, k, binary):
        item, where = self.json["buffers"][k], f"buffers[{k}]"
        size, uri = whole(item, "byteLength", where), item.get("uri")
        if uri is None:
            if k or binary is None:
                return Buffer(item, None)
            data, place = binary, "glb"
        elif not isinstance(uri, str):
            raise Trouble(f"{where}.uri isn't a text")
        elif uri.startswith("data:"):
            data, place = of_data_uri(uri, where), "json"
        else:
            data, place = read(self.beside(uri, where)), "beside"
        if len(data) < size:
            raise Trouble(f"{where} is cut: it declares {size} bytes, here are {len(data)}")
        return Buffer(item, data[:size], place)

    def beside(self, uri, where):
        """The path of a file beside the document. A file elsewhere isn't read, so that a stranger's document names none of ours."""
        folder, name = self.path.resolve().parent, urllib.parse.unquote(uri)
        path = (folder / name.replace("\0", "")).resolve()
        if re.match(r"[A-Za-z][A-Za-z0-9+.-]*:", uri) or "\0" in name or folder not in path.parents:
            raise Trouble(f"{where}.uri names something that isn't in the folder of the file: {uri}")
        self.inputs.append(path)
        return path

    def images_beside(self):
        """The names of the images that are files of their own."""
        names = (it.get("uri") for it in self.table("images"))
        return [it for it in names if isinstance(it, str) and not it.startswith("data:")]

    def put_images_in(self):
        """Puts images that are files beside the document, or are in its JSON, into buffer views. What is said of those that stay."""
        said = []
        for k, item in enumerate(self.table("images")):
            uri = item.get("uri")
            if not isinstance(uri, str):
                continue
            try:
                data = of_data_uri(uri, f"images[{k}]") if uri.startswith("data:") else read(self.beside(uri, f"images[{k}]"))
            except Trouble as why:
                said.append(f"images[{k}] stays a file of its own: {why.line}")
                continue
            kind = item.get("mimeType") or next((kind for begin, kind in IMAGES if re.match(begin, data, re.DOTALL)), None)
            if not kind:
                said.append(f"images[{k}] stays a file of its own, since its bytes are of no known kind: {uri[:60]}")
                continue
            del item["uri"]
            item["mimeType"] = kind
            item["bufferView"] = self.add_view(data, self.buffer_of([]))
        return said

    def join_buffers(self):
        """One buffer of all, as a GLB has it. Where the document is open, or a buffer has no bytes, they stay as they are."""
        if self.is_open or len(self.buffers) < 2 or any(it.data is None for it in self.buffers):
            return
        parts, starts, size = [], [], 0
        for buffer in self.buffers:
            filler = bytes(-size % 8)
            starts.append(size + len(filler))
            parts += [filler, buffer.data]
            size += len(filler) + len(buffer.data)
        for view in self.table("bufferViews"):
            view["byteOffset"] = view.get("byteOffset", 0) + starts[view["buffer"]]
            view["buffer"] = 0
        self.buffers = self.buffers[:1]
        self.json["buffers"] = self.json["buffers"][:1]
        self.buffers[0].data, self.buffers[0].is_changed = b"".join(parts), True
        self.json["buffers"][0]["byteLength"] = size

    # Accessors and buffer views.

    def check_view(self, number):
        """Refuses a buffer view that leaves its buffer."""
        item, name = self.json["bufferViews"][number], f"bufferViews[{number}]"
        end = whole(item, "byteOffset", name, 0) + whole(item, "byteLength", name)
        self.item("buffers", item.get("buffer"), name)
        data = self.buffers[item["buffer"]].data
        if data is not None and end > len(data):
            raise Trouble(f"{name} ends at byte {end} of buffers[{item['buffer']}], which has {len(data)}")

    def view(self, number, where):
        """The bytes of a buffer view."""
        item = self.item("bufferViews", number, where)
        data = self.buffers[item["buffer"]].data
        if data is None or item.get("extensions"):
            raise Trouble(f"{where}: bufferViews[{number}] has no plain data")
        at = item.get("byteOffset", 0)
        return memoryview(data)[at : at + item["byteLength"]]

    def rows_of(self, number, where):
        """The values of an accessor that has a buffer view: a row for each of its elements."""
        item = self.item("accessors", number, where)
        name = f"accessors[{number}]"
        kind, comps = COMPONENTS.get(hashable(item.get("componentType"))), ROWS.get(hashable(item.get("type")))
        if kind is None or comps is None:
            raise Trouble(f"{name} has an unknown componentType or type")
        count, at = whole(item, "count", name), whole(item, "byteOffset", name, 0)
        data = self.view(item.get("bufferView"), name)
        size = np.dtype(kind).itemsize * comps
        step = whole(self.json["bufferViews"][item["bufferView"]], "byteStride", name, size)
        if step < size:
            raise Trouble(f"{name} has elements of {size} bytes, and a byteStride of {step}")
        if count and at + (count - 1) * step + size > len(data):
            raise Trouble(
                f"{name} ends at byte {at + (count - 1) * step + size} of bufferViews[{item['bufferView']}], which has {len(data)}"
            )
        shape, steps = (count, comps), (step, np.dtype(kind).itemsize)
        return np.ndarray(shape, np.dtype(kind).newbyteorder("<"), data, at, steps).astype(kind) if count else np.zeros(shape, kind)

    def add_view(self, data, buffer, target=None, stride=None):
        """A new buffer view with these bytes, put behind what the buffer has."""
        views = self.json.setdefault("bufferViews", [])
        view = {"buffer": buffer, "byteOffset": 0, "byteLength": len(data)}
        view.update({key: value for key, value in (("byteStride", stride), ("target", target)) if value is not None})
        views.append(view)
        self.added[len(views) - 1] = bytes(data)
        return len(views) - 1

    def buffer_of(self, accessors):
        """The buffer that new data goes to: that of the first of these accessors which has one, else the first that can take it."""
        views = self.table("bufferViews")
        named = (self.json["accessors"][it].get("bufferView") for it in accessors)
        found = [views[it]["buffer"] for it in named if is_count(it) and it < len(views)]
        found += [k for k, it in enumerate(self.buffers) if it.data is not None]
        if not found:
            self.json.setdefault("buffers", []).append({"byteLength": 0})
            self.buffers.append(Buffer(self.json["buffers"][-1], b""))
            found = [len(self.buffers) - 1]
        return found[0]

    def count_users(self):
        """How often the known parts of the document name each accessor."""
        users = collections.Counter()
        for primitive in (it for mesh in self.table("meshes") for it in objects(mesh.get("primitives"))):
            for names in [primitive.get("attributes"), *objects(primitive.get("targets"))]:
                users.update(map(hashable, members(names).values()))
            users[hashable(primitive.get("indices"))] += 1
        for node in self.table("nodes"):
            copies = members(members(node.get("extensions")).get("EXT_mesh_gpu_instancing"))
            users.update(map(hashable, members(copies.get("attributes")).values()))
        for skin in self.table("skins"):
            users[hashable(skin.get("inverseBindMatrices"))] += 1
        for sampler in (it for animation in self.table("animations") for it in objects(animation.get("samplers"))):
            users.update(hashable(sampler.get(name)) for name in ("input", "output"))
        return users

    def own_accessor(self, number, uses=1):
        """The number of an accessor that may be changed for some uses of this one: itself where these are its last ones, else a copy.
        For none, a new one."""
        if number is None:
            self.json.setdefault("accessors", []).append({})
            return len(self.json["accessors"]) - 1
        self.users[number] -= uses
        if not self.users[number] and not self.is_open:
            return number
        self.json["accessors"].append(copy.deepcopy(self.json["accessors"][number]))
        return len(self.json["accessors"]) - 1

    def change(self, number, view, **members):
        """Gives an accessor another buffer view, or none, and other members; a member None is taken out."""
        item = self.json["accessors"][number]
        self.freed.add(item.pop("bufferView", None))
        item.pop("byteOffset", None)
        if view is not None:
            item["bufferView"] = view
        for key, value in members.items():
            item.pop(key, None) if value is None else item.__setitem__(key, value)

    def free(self, view):
        """Says that a part which was taken out named this buffer view."""
        self.freed.add(view)

    def use(self, extension, is_used):
        """Puts an extension into the lists of those used and required, or takes it out."""
        for name in ("extensionsUsed", "extensionsRequired"):
            held = self.json.get(name, [])
            if is_used and extension not in held:
                self.json[name] = [*held, extension]
            elif not is_used and extension in held:
                self.json[name] = [it for it in held if it != extension]
                if not self.json[name]:
                    del self.json[name]

    # Writing.

    def finish(self):
        """Puts the buffers together anew: the views that are left, and the new ones. Where the document isn't open, views that nothing
        names any more are taken out, and the numbers of the others close up."""
        views = self.table("bufferViews")
        named = [(holder, holder["bufferView"]) for holder in holders(self.json)]
        dead = set() if self.is_open else {it for it in self.freed if is_count(it)} - {number for _, number in named}
        for k, buffer in enumerate(self.buffers):
            own = [it for it, view in enumerate(views) if view.get("buffer") == k]
            if buffer.data is not None and any(it in dead or it in self.added for it in own):
                self.rebuild(
                    buffer, [views[it] for it in own if it not in dead and it not in self.added], [it for it in own if it in self.added]
                )
        left = [it for it in range(len(views)) if it not in dead]
        number_of = {old: new for new, old in enumerate(left)}
        for holder, number in named:
            holder["bufferView"] = number_of.get(number, number)
        if dead:
            self.json["bufferViews"] = [views[it] for it in left]
            if not left:
                del self.json["bufferViews"]

    def rebuild(self, buffer, kept, new):
        parts, size = [], 0
        for start, end, views in [(0, len(buffer.data), [])] if self.is_open else stretches(kept):
            filler = (start - size) % 4  # a stretch stays at its place modulo 4
            parts += [bytes(filler), buffer.data[start:end]]
            for view in views:
                view["byteOffset"] += size + filler - start
            size += filler + end - start
        for number in new:
            filler = -size % 4
            parts += [bytes(filler), self.added[number]]
            self.json["bufferViews"][number]["byteOffset"] = size + filler
            size += filler + len(self.added[number])
        buffer.data = b"".join(parts) or bytes(4)
        buffer.json["byteLength"], buffer.is_changed = len(buffer.data), True

    def files_of(self, path):
        """What is to be written for the document, by path: a GLB where the path ends so or is standard output, else a .gltf with its
        buffers beside it."""
        name, is_binary = pathlib.Path(path), is_glb(path)
        binary, beside = None, {}
        for k, buffer in enumerate(self.buffers):
            if buffer.data is None:
                continue
            if k == 0 and is_binary:
                buffer.json.pop("uri", None)
                binary = buffer.data
            elif buffer.place == "json":
                if buffer.is_changed:
                    buffer.json["uri"] = "data:application/octet-stream;base64," + base64.b64encode(buffer.data).decode()
            elif is_standard_output(path):
                raise Trouble(f"buffers[{k}] would be a file beside the output, and standard output has none")
            else:
                place = name.parent / f"{name.stem}{k or ''}.bin"
                buffer.json["uri"] = urllib.parse.quote(place.name)
                beside[place] = buffer.data
        whole = write_glb(self.json, binary) if is_binary else write_json(self.json)
        return {**beside, path: whole}


def is_glb(path):
    """Whether a document that is written to this path is one file, a GLB."""
    return is_standard_output(path) or pathlib.Path(path).suffix.lower() == ".glb"


def stretches(views):
    """The stretches of a buffer that these views cover: start, end and the views; overlapping views stay in one."""
    made = []
    for view in sorted(views, key=lambda it: it.setdefault("byteOffset", 0)):
        start, end = view["byteOffset"], view["byteOffset"] + view["byteLength"]
        if made and start < made[-1][1]:
            made[-1] = (made[-1][0], max(made[-1][1], end), made[-1][2] + [view])
        else:
            made.append((start, end, [view]))
    return made


def holders(item):
    """Each object of a document that names a buffer view; extras are the user's own."""
    if isinstance(item, dict):
        if is_count(item.get("bufferView")):
            yield item
        for key, value in item.items():
            if key != "extras":
                yield from holders(value)
    elif isinstance(item, list):
        for value in item:
            yield from holders(value)


def is_count(value):
    return isinstance(value, int) and not isinstance(value, bool) and value >= 0


def hashable(value):
    """A number or text of the JSON, to look it up in a table; None for all else."""
    return value if isinstance(value, (int, str)) else None


def objects(value):
    return [it for it in value if isinstance(it, dict)] if isinstance(value, list) else []


def members(value):
    return value if isinstance(value, dict) else {}


def whole(item, name, where, default=None):
    value = item.get(name, default)
    if not is_count(value):
        raise Trouble(f"{where}.{name} isn't a whole number of 0 or more")
    return value


def of_data_uri(uri, where):
    head, mark, body = uri.partition(",")
    try:
        return (
            base64.b64decode(urllib.parse.unquote(body), validate=True)
            if mark and head.endswith(";base64")
            else urllib.parse.unquote_to_bytes(body)
        )
    except (ValueError, binascii.Error) as why:
        raise Trouble(f"{where}.uri isn't base64") from why


def read_json(data):
    try:
        document = json.loads(data.decode("utf-8-sig"))
    except (ValueError, RecursionError) as why:
        raise Trouble(f"the JSON can't be read: {why}") from why
    if not isinstance(document, dict):
        raise Trouble("the JSON isn't an object")
    return document


def write_json(document):
    return (json.dumps(document, indent=2, ensure_ascii=False) + "\n").encode("utf-8")
