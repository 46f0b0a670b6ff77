"""Primitives of a glTF document to `.drc` streams and back, as the extension KHR_draco_mesh_compression has them."""
import re

import numpy as np

from .gltf import COMPONENT_OF, COMPONENTS, DRACO, INDEX_DATA, OF_PRIMITIVES, POINT_DATA, ROWS, hashable, is_count
from .grids import Grid, check_finite, check_held, grid_by_step, grid_of, octahedral, to_floats, to_integers
from .mesh import FACES, POINTS, many
from .packing import sequential, with_method, with_profile
from .plytext import COLOUR, GENERIC, NORMAL, POSITION, QUANTISED, TEXTURE, TYPE_OF, Geometry, Head, read_text, write_text
from .surface import degenerate, numbers_of, points_made
from .trouble import Refused, Trouble

TRIANGLES = 4
SHORT_INDICES = 65535  # so many points have indices of 16 bits, whose greatest value is none
KINDS = [  # by the name of an attribute: its usage and the option with its bits
    (r"POSITION", POSITION, "qp"),
    (r"NORMAL", NORMAL, "qn"),
    (r"TANGENT", GENERIC, "qn"),
    (r"TEXCOORD_\d+", TEXTURE, "qt"),
    (r"COLOR_\d+", COLOUR, "qc"),
    (r".*", GENERIC, "qg"),
]


class Left(Exception):
    """Why a primitive stays as it is."""


def primitives(gltf):
    """Each primitive of the document with its place in words."""
    for m, mesh in enumerate(gltf.table("meshes")):
        items = mesh.get("primitives")
        if not isinstance(items, list) or not all(isinstance(it, dict) for it in items):
            raise Trouble(f"meshes[{m}].primitives isn't a list of objects")
        for p, item in enumerate(items):
            where = f"meshes[{m}].primitives[{p}]"
            names = item.get("attributes")
            if not isinstance(names, dict):
                raise Trouble(f"{where}.attributes isn't an object")
            for number in [*names.values(), *([item["indices"]] if "indices" in item else [])]:
                gltf.item("accessors", number, where)
            if not isinstance(item.get("extensions", {}), dict) or not isinstance(item.get("targets", []), list):
                raise Trouble(f"{where}: its extensions or targets have another form than theirs")
            yield where, item


def grouped(items, key):
    """Primitives with the same data, which share one stream: where the first stands, and all of them."""
    groups = {}
    for where, item in items:
        groups.setdefault(key(item), (where, []))[1].append(item)
    return list(groups.values())


def bounds(accessor, name, table):
    """The bounds that an accessor is to have: those of positions always, else where it has them already."""
    if not len(table) or not (name == "POSITION" or "min" in accessor or "max" in accessor):
        return {"min": None, "max": None}
    return {"min": table.min(axis=0).tolist(), "max": table.max(axis=0).tolist()}


# To streams.


def is_plain(table):
    """Whether a table is one of finite floats in rows of three."""
    return table.dtype == np.float32 and table.shape[1] == 3 and len(table) > 0 and bool(np.isfinite(table).all())


def integers_of(table, head):
    """The integers of an attribute: those of its floats by its head, or the table's own."""
    return octahedral(table, head.octa) if head.octa else to_integers(table, head.grid) if head.grid else table


def joined(sets):
    """Sets of which any two that have an item in common are put together."""
    made = []
    for one in sets:
        apart = [it for it in made if not it & one]
        made = [*apart, one.union(*(it for it in made if it & one))]
    return made


def whole_grid(table):
    """A grid of step 1 where floats are whole numbers, such as labels, which come back as they are; else None."""
    low = table.min(axis=0) if len(table) else np.zeros(table.shape[1])
    wide = (table.max(axis=0).astype(float) - low).max() if len(table) else 0
    if wide >= 1 << 24 or (np.abs(table) >= 1 << 24).any() or (table != np.floor(table)).any():
        return None
    bits = max(1, int(wide).bit_length())
    return Grid(bits, np.float32((1 << bits) - 1), low.astype(np.float32))


class Packing:
    """Codes primitives by `drc enc`, as the settings say (gltf_files.Settings)."""

    def __init__(self, gltf, drc, settings, tell):
        self.gltf, self.drc, self.settings, self.tell = gltf, drc, settings, tell
        self.words, self.keep_degenerate = list(settings.enc), settings.keep_degenerate
        self.coded, self.error = 0, 0.0
        self.flat = []  # where faces with two corners at one place stand, and how many
        self.faces_seen = 0
        self.shared = {} if settings.own_grids else self.shared_grids()
        self.grids = {}  # of the positions of what was coded, by their words

    def shared_grids(self):
        """For each accessor of positions the grid that all primitives of its mesh have, so that places which they share stay shared. Meshes that
        share positions have one grid too, and by a step that is asked for all meshes of the file."""
        found, mesh_of = {}, {}
        for where, item in primitives(self.gltf):
            number = item["attributes"].get("POSITION")
            if self.is_coded(item):
                mesh_of.setdefault(number, set()).add(where.partition(".")[0])
                found.setdefault(number, (where, self.gltf.rows_of(number, where)))
        shared = {}
        for meshes in [set().union(*mesh_of.values())] if self.settings.step else joined(mesh_of.values()):
            numbers = [it for it, names in mesh_of.items() if names <= meshes and is_plain(found[it][1])]
            tables = [found[it][1] for it in numbers]
            if tables:
                ends = np.concatenate([[it.min(axis=0), it.max(axis=0)] for it in tables])
                grid = self.grid_of_positions(found[numbers[0]][0], ends)
                shared.update(dict.fromkeys(numbers, grid))
        return shared

    def is_coded(self, item):
        try:
            self.fits(item)
        except Left:
            return False
        return True

    def grid_of_positions(self, where, table):
        """The grid that is asked for, for a table of positions."""
        what = f"{where}.POSITION: points"
        if self.settings.grid:
            return self.settings.grid
        if self.settings.step:
            return grid_by_step(table, self.settings.step, what)
        return grid_of(table, self.settings.bits["qp"], what)

    def groups(self):
        key = lambda it: (
            tuple(it["attributes"].items()),
            it.get("indices"),
            bool(it.get("targets")),
            repr(it.get("mode")),
            tuple(it.get("extensions", ())),
        )
        return grouped(primitives(self.gltf), key)

    def pack(self, where, items):
        """Codes primitives of the same data as one stream, or says why they stay as they are."""
        try:
            self.fits(items[0])
            names, tables = self.tables(where, items[0])
            heads = [self.head(where, k, name, items[0], it) for k, (name, it) in enumerate(zip(names, tables))]
            values = [integers_of(it, head) for it, head in zip(tables, heads)]
            faces = self.faces(where, items[0], len(tables[0]))
            faces, words = self.method(where, items[0], names, values, faces)
            used = np.arange(len(tables[0])) if items[0].get("targets") else np.unique(faces)
            if self.settings.grid and heads[0].grid:
                check_held(tables[0][used], heads[0].grid, f"{where}.POSITION: point")
            values, faces = [it[used] for it in values], np.searchsorted(used, faces)
            geometry = Geometry(heads, values, faces)
            for what, count, most in (("points", geometry.points, POINTS), ("faces", len(faces), FACES)):
                if count > most:
                    raise Left(f"it has {count:,} {what}, and a stream has at most {most:,}")
            words = with_profile(with_method(words, len(faces)), self.settings.profile, True)
            stream = self.encode(geometry, words)
        except Left as why:
            self.tell(f"{where} is left as it is: {why}")
            return
        self.coded += len(items)
        if heads[0].grid:
            self.grids[str(heads[0].grid)] = heads[0].grid
            there = to_floats(to_integers(tables[0], heads[0].grid), heads[0].grid)
            self.error = max(self.error, float(np.abs(there.astype(float) - tables[0])[used].max()))
        self.put(items, names, geometry, stream, geometry.points if "seq" in words else points_made(geometry.faces, geometry.values))

    def encode(self, geometry, words):
        """The stream. Where the sequential method wasn't asked for, indices are packed, unless the stream becomes shorter than three bytes
        a face: such a stream other readers refuse."""
        text = write_text(geometry)
        try:
            if "seq" in words and "seq" not in self.words and "--index" not in words:
                stream, _ = self.drc.enc(text, [*words, "--index", "packed"])
                if len(stream) >= 3 * len(geometry.faces) + 32:
                    return stream
            return self.drc.enc(text, words)[0]
        except Refused as why:
            raise Left(why.line) from why

    def tell_of_flat(self):
        """One line for all faces with two corners at one place."""
        if not self.flat:
            return
        where, more, count = self.flat[0][0], len(self.flat) - 1, sum(it for _, it in self.flat)
        places = f"{where} and {many(more, 'more primitive')}" if more else where
        faces = f"{count:,} of {many(self.faces_seen, 'face')} with two corners at one place when quantised"
        if self.keep_degenerate:
            self.tell(f"{places}: coded sequentially, which takes more bytes, for {faces}")
        else:
            self.tell(f"{places}: left out {faces}; --keep-degenerate keeps them")

    def fits(self, item):
        """Refuses a primitive of a form that isn't coded."""
        extensions = item.get("extensions", {})
        other = sorted(set(extensions) - OF_PRIMITIVES)
        if DRACO in extensions:
            raise Left("it is coded already")
        if other:
            raise Left(f"its extension {other[0]} may depend on the order of points")
        if item.get("mode", TRIANGLES) != TRIANGLES:
            raise Left(f"its mode {item['mode']} isn't that of triangles, 4")
        if "POSITION" not in item["attributes"]:
            raise Left("it has no POSITION")
        for name, number in [*item["attributes"].items(), *([("indices", item["indices"])] if "indices" in item else [])]:
            accessor = self.gltf.json["accessors"][number]
            view = accessor.get("bufferView")
            if "sparse" in accessor or view is None:
                raise Left(f"its {name} is a sparse accessor, or has no data of its own")
            if self.gltf.item("bufferViews", view, f"accessors[{number}]").get("extensions"):
                raise Left(f"its {name} is coded by another extension")
            if hashable(accessor.get("type")) not in ROWS:
                raise Left(f"its {name} has the type {accessor.get('type')}")

    def tables(self, where, item):
        """The names of the attributes, POSITION first, and a table of each."""
        names = sorted(item["attributes"], key=lambda name: name != "POSITION")
        tables = [self.gltf.rows_of(item["attributes"][name], where) for name in names]
        if tables[0].shape[1] != 3:
            raise Trouble(f"{where}: its POSITION has {tables[0].shape[1]} components, not 3")
        for name, table in zip(names, tables):
            if len(table) != len(tables[0]):
                raise Trouble(f"{where}: its POSITION has {len(tables[0])} points, its {name} {len(table)}")
            if table.dtype == np.uint32 and (table >> 31).any():
                raise Left(f"its {name} has values of 2^31 and more")
        return names, tables

    def head(self, where, number, name, item, table):
        usage, option = next((usage, option) for pattern, usage, option in KINDS if re.fullmatch(pattern, name))
        if table.dtype == np.float32:
            check_finite(table, f"{where}.{name}: point")
            if usage == NORMAL and self.settings.profile == 3 and table.shape[1] == 3:
                return Head(usage, QUANTISED, 2, 0, number, octa=self.settings.bits[option])
            return Head(usage, QUANTISED, table.shape[1], 0, number, self.grid(where, name, usage, option, item, table))
        is_normalized = self.gltf.json["accessors"][item["attributes"][name]].get("normalized") is True
        return Head(usage, TYPE_OF[table.dtype.name], table.shape[1], int(is_normalized), number)

    def grid(self, where, name, usage, option, item, table):
        """The grid of an attribute of floats."""
        if name == "POSITION":
            return self.shared.get(item["attributes"][name]) or self.grid_of_positions(where, table)
        whole = whole_grid(table) if usage == GENERIC else None
        return whole or grid_of(table, self.settings.bits[option], f"{where}.{name}: points")

    def faces(self, where, item, count):
        if "indices" in item:
            rows = self.gltf.rows_of(item["indices"], where)
            if rows.shape[1] != 1 or rows.dtype not in (np.uint8, np.uint16, np.uint32):
                raise Trouble(f"{where}: its indices aren't whole numbers")
            indices = rows[:, 0].astype(np.int64)
        else:
            indices = np.arange(count)
        beyond = np.flatnonzero(indices >= count)
        if len(beyond):
            raise Trouble(f"{where}: index {beyond[0]} is {indices[beyond[0]]}, but there are {count} points")
        if not len(indices) or len(indices) % 3:
            raise Left(f"its {len(indices)} corners aren't those of one or more triangles")
        return indices.reshape(-1, 3)

    def method(self, where, item, names, values, faces):
        """The faces to be coded, and the options of `enc`: sequential where the order of points counts, or where faces with two corners at
        one place are kept. Morph targets and joints may move such corners apart, so those faces stay in any case."""
        words = self.words
        is_flat = degenerate(numbers_of(values[0]), faces)
        self.faces_seen += len(faces)
        if item.get("targets"):
            if "seq" not in words:
                self.tell(f"{where} is coded sequentially, since its morph targets need the points in their order")
            if len(values[0]) > 3 * len(faces):
                raise Left("its morph targets need a sequential stream, and readers take none with more points than three times the faces")
            return faces, words if "seq" in words else sequential(words)
        moved = [it for name, it in zip(names, values) if re.fullmatch(r"(JOINTS|WEIGHTS)_\d+", name)]
        if moved and (is_flat & ~degenerate(numbers_of(np.concatenate([values[0], *moved], axis=1)), faces)).any():
            if "seq" not in words:
                self.tell(f"{where} is coded sequentially, since it has faces with two corners at one place that joints move apart")
            return faces, words if "seq" in words else sequential(words)
        if is_flat.any():
            if not self.keep_degenerate:
                if is_flat.all():
                    raise Left("each of its faces has two corners at one place when quantised")
                self.flat.append((where, int(is_flat.sum())))
                return faces[~is_flat], words
            if "seq" not in words:
                self.flat.append((where, int(is_flat.sum())))
                return faces, sequential(words)
        return faces, words

    def put(self, items, names, geometry, stream, count):
        """Puts the stream into the document, and accessors that say what a reader makes of it: so many points, in these bounds."""
        gltf, made, numbers = self.gltf, {}, items[0]["attributes"]
        buffer = gltf.buffer_of(numbers.values())
        for k, name in enumerate(names):
            table = geometry.floats(k)
            made[name] = gltf.own_accessor(numbers[name], len(items))
            gltf.change(made[name], None, count=count, **bounds(gltf.json["accessors"][made[name]], name, table))
        indices = gltf.own_accessor(items[0].get("indices"), len(items))
        gltf.change(
            indices,
            None,
            componentType=5123 if count <= SHORT_INDICES else 5125,
            count=geometry.faces.size,
            type="SCALAR",
            min=None,
            max=None,
        )
        view = gltf.add_view(stream, buffer)
        for item in items:
            item["attributes"] = {name: made[name] for name in item["attributes"]}
            item["indices"] = indices
            item.setdefault("extensions", {})[DRACO] = {
                "bufferView": view,
                "attributes": {name: head.id for name, head in zip(names, geometry.heads)},
            }


# From streams.


def coded_positions(gltf):
    """The stream of each coded primitive that has positions, with the id of these in it; a stream of several primitives once."""
    found = {}
    for where, item in primitives(gltf):
        extension = item.get("extensions", {}).get(DRACO)
        if isinstance(extension, dict) and isinstance(extension.get("attributes"), dict) and "POSITION" in extension["attributes"]:
            found[hashable(extension.get("bufferView"))] = extension["attributes"]["POSITION"], bytes(gltf.view(extension.get("bufferView"), where))
    return list(found.values())


class Unpacking:
    """Decodes primitives by `drc dec`, and puts their values into buffers."""

    def __init__(self, gltf, drc):
        self.gltf, self.drc, self.coded = gltf, drc, 0

    def groups(self):
        coded = [(where, item) for where, item in primitives(self.gltf) if DRACO in item.get("extensions", {})]
        for where, item in coded:
            extension = item["extensions"][DRACO]
            names = extension.get("attributes") if isinstance(extension, dict) else None
            if not isinstance(names, dict) or not all(is_count(it) for it in names.values()) or not is_count(extension.get("bufferView")):
                raise Trouble(f"{where}: its {DRACO} has another form than the extension's")
        key = lambda it: (repr(it["extensions"][DRACO]), tuple(it["attributes"].items()), it.get("indices"), "targets" in it)
        return grouped(coded, key)

    def unpack(self, where, items):
        """Decodes the stream of primitives that share it."""
        item, gltf = items[0], self.gltf
        extension = item["extensions"][DRACO]
        if item.get("mode", TRIANGLES) != TRIANGLES:
            raise Trouble(f"{where}: its mode {item['mode']} isn't that of triangles, 4")
        stream = bytes(gltf.view(extension["bufferView"], where))
        try:
            geometry = read_text(self.drc.dec(stream))
        except Refused as why:
            raise Trouble(f"{where}: {why.line}") from why
        if geometry.faces is None:
            raise Trouble(f"{where}: its stream is a cloud")
        tables = {name: self.table(where, name, item, geometry, id) for name, id in extension["attributes"].items()}
        self.check_rest(where, item, geometry, is_sequential=stream[8] == 0)
        self.coded += len(items)
        buffer = self.gltf.item("bufferViews", extension["bufferView"], where)["buffer"]
        made = {name: self.put_points(item["attributes"][name], name, table, buffer, len(items)) for name, table in tables.items()}
        indices = self.put_indices(item.get("indices"), geometry, buffer, len(items))
        gltf.free(extension["bufferView"])
        for it in items:
            it["attributes"] = {name: made.get(name, number) for name, number in it["attributes"].items()}
            it["indices"] = indices
            del it["extensions"][DRACO]
            if not it["extensions"]:
                del it["extensions"]

    def table(self, where, name, item, geometry, id):
        """The values of the attribute with this id, in the type that the accessor declares."""
        found = [k for k, head in enumerate(geometry.heads) if head.id == id]
        if name not in item["attributes"]:
            raise Trouble(f"{where}: the extension names {name}, which the primitive hasn't")
        if not found:
            raise Trouble(f"{where}: its stream has no attribute with the id {id}, that of {name}")
        accessor = self.gltf.json["accessors"][item["attributes"][name]]
        kind, comps = COMPONENTS.get(hashable(accessor.get("componentType"))), ROWS.get(hashable(accessor.get("type")))
        head, values = geometry.heads[found[0]], geometry.floats(found[0])
        if kind is None or comps != head.wide:
            raise Trouble(f"{where}: {name} has {head.wide} components in its stream, its accessor is of type {accessor.get('type')}")
        if kind is np.float32:
            if head.normalized and not head.has_floats:
                values = values.astype(np.float32) / np.float32(np.iinfo(values.dtype).max)
            return values.astype(np.float32)
        if head.has_floats:
            raise Trouble(f"{where}: {name} has quantised floats in its stream, its accessor says integers")
        limits = np.iinfo(kind)
        if len(values) and (values.min() < limits.min or values.max() > limits.max):
            raise Trouble(f"{where}: {name} has values in its stream that its accessor's componentType {accessor['componentType']} hasn't")
        return values.astype(kind)

    def check_rest(self, where, item, geometry, is_sequential):
        """What isn't in the stream stands in the order of its points, which a sequential stream alone keeps."""
        rest = [(name, it) for name, it in item["attributes"].items() if name not in item["extensions"][DRACO]["attributes"]]
        for target in item.get("targets", []):
            rest += target.items()
        for name, number in rest:
            count = self.gltf.item("accessors", number, where).get("count")
            if not is_sequential:
                raise Trouble(f"{where}: {name} isn't in its stream, whose order of points is lost; a sequential stream keeps it")
            if count != geometry.points:
                raise Trouble(f"{where}: its stream has {geometry.points} points, its {name} {count}")

    def put_points(self, number, name, table, buffer, uses):
        size = table.dtype.itemsize * table.shape[1]
        stride = size + -size % 4
        data = np.zeros((len(table), stride), np.uint8)
        data[:, :size] = np.ascontiguousarray(table).view(np.uint8).reshape(len(table), size)
        view = self.gltf.add_view(data.tobytes(), buffer, POINT_DATA, stride if stride != size else None)
        made = self.gltf.own_accessor(number, uses)
        self.gltf.change(made, view, count=len(table), **bounds(self.gltf.json["accessors"][made], name, table))
        return made

    def put_indices(self, number, geometry, buffer, uses):
        made = self.gltf.own_accessor(number, uses)
        declared = COMPONENTS.get(hashable(self.gltf.json["accessors"][made].get("componentType")))
        kinds = [it for it in (np.uint8, np.uint16, np.uint32) if geometry.points <= np.iinfo(it).max]
        kind = declared if declared in kinds else kinds[-1] if declared == np.uint32 else next(it for it in kinds if it != np.uint8)
        table = geometry.faces.astype(kind)
        view = self.gltf.add_view(table.tobytes(), buffer, INDEX_DATA)
        self.gltf.change(made, view, componentType=COMPONENT_OF[np.dtype(kind)], count=table.size, type="SCALAR", min=None, max=None)
        return made
