"""Meshes and clouds for the tests, their PLY texts, and what programs print of geometries, read back."""
import math
import random
import re
import struct


class Shape:
    """Points as rows of integers, faces as triples of point numbers (None: a cloud), the property of each column, and comments."""

    def __init__(self, name, points, faces, properties=("int x", "int y", "int z"), comments=()):
        self.name, self.points, self.faces, self.properties, self.comments = name, points, faces, properties, comments

    def ply(self):
        lines = ["ply", "format ascii 1.0", *(f"comment {it}" for it in self.comments), f"element vertex {len(self.points)}"]
        lines += [f"property {it}" for it in self.properties]
        if self.faces is not None:
            lines += [f"element face {len(self.faces)}", "property list uchar int vertex_indices"]
        lines.append("end_header")
        lines += [" ".join(map(str, row)) for row in self.points]
        lines += ["3 " + " ".join(map(str, face)) for face in self.faces or ()]
        return ("\n".join(lines) + "\n").encode()

    def obj(self):
        """As OBJ, where two materials take turns: Google's draco makes a generic attribute of them."""
        lines = ["v " + " ".join(map(str, row[:3])) for row in self.points]
        for number, face in enumerate(self.faces):
            lines.append(f"usemtl m{number // 3 % 2}")
            lines.append("f " + " ".join(str(i + 1) for i in face))
        return ("\n".join(lines) + "\n").encode()

    def has(self, word):
        return any(it.split()[1] == word for it in self.properties)


def triangles(points, faces, columns=None):
    """The triangles as sorted triples of rows, each begun at its least row, so that order and turns don't count."""
    rows = [tuple(row[:columns]) for row in points]
    made = []
    for face in faces:
        corners = [rows[i] for i in face]
        made.append(min(tuple(corners[k:] + corners[:k]) for k in range(3)))
    return sorted(made)


def lattice(side, closed=False, hole=lambda i, j: False):
    step = (lambda i: (i + 1) % side) if closed else (lambda i: i + 1)
    wide = side if closed else side + 1
    number = lambda i, j: j * wide + i
    points = [(i, j, (7 * i + 3 * j * j) % 11) for j in range(wide) for i in range(wide)]
    faces = []
    for j in range(side):
        for i in range(side):
            if not hole(i, j):
                a, b, c, d = number(i, j), number(step(i), j), number(i, step(j)), number(step(i), step(j))
                faces += [(a, b, d), (a, d, c)]
    return points, faces


def fan(count):
    points = [(m, 1 if m else 0, m * m % 13) for m in range(2 * count + 1)]
    return points, [(0, 2 * k + 1, 2 * k + 2) for k in range(count)]


def book(pages):
    """So many faces at one edge, in both directions."""
    points = [(0, 0, 0), (0, 0, 9)] + [(k + 1, k * k % 7, 4) for k in range(pages)]
    return points, [(0, 1, k + 2) if k % 3 else (1, 0, k + 2) for k in range(pages)]


def soup(seed, points, faces):
    """Any faces over few points: edges of many faces, repeated and turned faces, points of no face."""
    draw = random.Random(seed)
    rows = [(draw.randrange(9), draw.randrange(9), k) for k in range(points)]
    return rows, [tuple(draw.sample(range(points), 3)) for _ in range(faces)]


def strip(turns):
    """A Moebius strip."""
    points = [(k, side, k % 3) for k in range(turns) for side in (0, 1)]
    faces = []
    for k in range(turns):
        a, b = 2 * k, 2 * k + 1
        c, d = (2 * k + 2, 2 * k + 3) if k + 1 < turns else (1, 0)
        faces += [(a, c, b), (b, c, d)]
    return points, faces


def pieces(count):
    """As many triangles, none of which touches another."""
    points = [(3 * k + i, k, i) for k in range(count) for i in range(3)]
    return points, [(3 * k, 3 * k + 1, 3 * k + 2) for k in range(count)]


def seven():
    """The torus of seven points, each two of which have an edge."""
    points = [(k, k * k % 7, 0) for k in range(7)]
    return points, [(k, (k + 1) % 7, (k + 3) % 7) for k in range(7)] + [(k, (k + 3) % 7, (k + 2) % 7) for k in range(7)]


def ring():
    """The sides of a prism of three sides, which is open above and below."""
    points = [(k, 2 * k * k, 1) for k in range(6)]
    return points, [(0, 1, 3), (1, 4, 3), (1, 2, 4), (2, 5, 4), (2, 0, 5), (0, 3, 5)]


def plate(side, handles, holes):
    """The surface of a plate of so many cells each way, with walls through so many cells, and so many more left out above.

    A cell that is cut has odd numbers, and so no point in common with another or with the rim."""
    number = lambda i, j, z: (z * (side + 1) + j) * (side + 1) + i
    points = [(i, j, 5 * z + i * j % 3) for z in (0, 1) for j in range(side + 1) for i in range(side + 1)]
    odd = [(i, j) for j in range(1, side - 1, 2) for i in range(1, side - 1, 2)]
    through, above = set(odd[:handles]), set(odd[handles:handles + holes])
    faces = []

    def square(a, b, c, d):
        faces.extend([(a, b, d), (a, d, c)])

    def wall(i, j, k, m):
        square(number(i, j, 0), number(k, m, 0), number(i, j, 1), number(k, m, 1))

    for j in range(side):
        for i in range(side):
            if (i, j) in through:
                corners = [(i, j), (i, j + 1), (i + 1, j + 1), (i + 1, j)]
                for (a, b) in zip(corners, corners[1:] + corners[:1]):
                    wall(*a, *b)
                continue
            square(number(i, j, 0), number(i, j + 1, 0), number(i + 1, j, 0), number(i + 1, j + 1, 0))
            if (i, j) not in above:
                square(number(i, j, 1), number(i + 1, j, 1), number(i, j + 1, 1), number(i + 1, j + 1, 1))
    for k in range(side):
        wall(k, 0, k + 1, 0)
        wall(side, k, side, k + 1)
        wall(k + 1, side, k, side)
        wall(0, k + 1, 0, k)
    return points, faces


def scan(side, seed):
    """A height field in which faces are left out, repeated and turned over."""
    draw = random.Random(seed)
    points, faces = lattice(side)
    kept = [face for face in faces if draw.random() < 0.97]
    repeated = [tuple(draw.sample(face, 3)) for face in kept if draw.random() < 0.05]
    return points, kept + repeated


def with_column(points, value, *properties):
    return [row + value(k) for k, row in enumerate(points)], ("int x", "int y", "int z") + properties


def split_cells(side):
    """A lattice each cell of which has its own four points and a label, so that its edges are seams of the label."""
    points, faces = [], []
    for j in range(side):
        for i in range(side):
            label, k = (5 * i + 3 * j * i) % 4, len(points)
            points += [(i, j, 0, label), (i + 1, j, 0, label), (i, j + 1, 0, label), (i + 1, j + 1, 0, label)]
            faces += [(k, k + 1, k + 3), (k, k + 3, k + 2)]
    return points, faces


def colours_on_a_scan():
    """Two faces whose positions are quantised floats, with colours."""
    rows = [(0, 0, 1023, 255, 0, 0), (2047, 0, 1023, 255, 0, 0), (0, 2047, 1023, 0, 255, 0), (2047, 2047, 1023, 0, 255, 0)]
    properties = ("int x", "int y", "int z", "uchar red", "uchar green", "uchar blue")
    comments = ("drc attr 0 0 9 3 0 0", "drc attr 1 2 2 3 1 1", "drc quant 0 11 3f800000 00000000 00000000 bf800000")
    return Shape("colours on a scan", rows, [(0, 1, 2), (2, 1, 3)], properties, comments)


def two_labels():
    """Two faces with one edge, along which they have two labels."""
    rows = [(0, 0, 0, 7), (1, 0, 0, 7), (0, 1, 0, 7), (0, 1, 0, 9), (1, 0, 0, 9), (1, 1, 0, 9)]
    return Shape("two labels", rows, [(0, 1, 2), (3, 4, 5)], ("int x", "int y", "int z", "uchar label"))


def many():
    """Meshes of many parts, holes and handles."""
    return [Shape("1,000 components", *pieces(1000)), Shape("100 holes and 20 handles", *plate(23, 20, 100)), Shape("scan", *scan(40, 3))]


def meshes():
    """The meshes of all tests, small ones first."""
    made = [Shape("triangle", [(0, 0, 0), (10, 0, 0), (0, 10, -1)], [(0, 1, 2)])]
    made.append(Shape("tetrahedron", [(0, 0, 0), (9, 0, 0), (0, 9, 0), (0, 0, 9)], [(0, 2, 1), (0, 1, 3), (1, 2, 3), (2, 0, 3)]))
    made += [Shape(f"book {n}", *book(n)) for n in (2, 3, 7)]
    made += [Shape(f"fan {n}", *fan(n)) for n in (1, 4)]
    made += [Shape("seven points", *seven()), Shape("ring", *ring()), two_labels()]
    made.append(Shape("strip", *strip(7)))
    made.append(Shape("pieces", *pieces(6)))
    made.append(Shape("grid", *lattice(5)))
    made.append(Shape("torus", *lattice(5, closed=True)))
    made.append(Shape("holes", *lattice(9, hole=lambda i, j: i % 2 == 1 and j % 2 == 1)))
    made.append(Shape("repeated", lattice(3)[0], lattice(3)[1] + lattice(3)[1][4:9]))
    made += [Shape(f"soup {seed}", *soup(seed, 6 + seed % 5, 5 + 2 * seed)) for seed in range(8)]
    points, faces = lattice(4)
    rows, properties = with_column(points, lambda k: (k * 9 % 256, k * k % 256, 7), "uchar red", "uchar green", "uchar blue")
    made.append(Shape("colours", rows, faces, properties))
    rows, properties = with_column(points, lambda k: (k % 3, -k), "uchar label", "short weight")
    made.append(Shape("labels", rows, faces, properties))
    rows, faces = split_cells(4)
    made.append(Shape("seams", rows, faces, ("int x", "int y", "int z", "uchar label")))
    rows, faces = soup(99, 12, 30)
    rows, properties = with_column(rows, lambda k: (k % 2, k % 5 * 1000 - 2000), "uchar label", "int weight")
    made.append(Shape("mixed", rows + [row[:3] + (1, 5) for row in rows], faces + [tuple(i + 12 for i in face) for face in faces], properties))
    return made


class Coated:
    """A mesh or cloud of floats: positions, normals and texture coordinates as lists (None: without), and faces as triples of corners (None: a cloud). A
    corner is a triple of numbers: of its position, of its texture coordinates and of its normal."""

    def __init__(self, name, positions, coordinates, normals, faces):
        self.name, self.positions, self.coordinates, self.normals, self.faces = name, positions, coordinates, normals, faces

    def obj(self):
        lines = ["v " + " ".join(map(str, it[:3])) for it in self.positions]
        lines += ["vt " + " ".join(map(str, it)) for it in self.coordinates or ()]
        lines += ["vn " + " ".join(map(str, it)) for it in self.normals or ()]
        for face in self.faces:
            lines.append("f")
            for position, coordinate, normal in face:
                lines[-1] += f" {position + 1}/" + (f"{coordinate + 1}" if self.coordinates else "") + (f"/{normal + 1}" if self.normals else "")
        return ("\n".join(lines) + "\n").encode()

    def ply(self):
        """A cloud as PLY: its normals are those of its positions."""
        names = ["x", "y", "z", "nx", "ny", "nz"]
        lines = ["ply", "format ascii 1.0", f"element vertex {len(self.positions)}", *(f"property float {it}" for it in names), "end_header"]
        lines += [" ".join(map(str, [*place[:3], *normal])) for place, normal in zip(self.positions, self.normals)]
        return ("\n".join(lines) + "\n").encode()


def across(a, b, c):
    """A normal of the face at three places: not a zero vector, and not of length 1, which Google's draco doesn't ask for."""
    u, v = [x - y for x, y in zip(b, a)], [x - y for x, y in zip(c, a)]
    made = tuple(u[k - 2] * v[k - 1] - u[k - 1] * v[k - 2] for k in range(3))
    return made if any(made) else (0, 0, 1)


def smooth(points, faces):
    """A normal for each point: the sum of those of the faces round it."""
    sums = [[0, 0, 0] for _ in points]
    for face in faces:
        normal = across(*(points[p][:3] for p in face))
        for p in face:
            sums[p] = [x + y for x, y in zip(sums[p], normal)]
    return [tuple(it) if any(it) else (0, -1, 0) for it in sums]


def unrolled(points, shift=0):
    """Texture coordinates for each point, by its place."""
    return [(0.125 * row[0] + 0.03125 * row[2] + shift, 0.25 * row[1] - 0.0625 * row[2] + 0.5 * shift) for row in points]


def coated():
    """The meshes of all tests with normals, with texture coordinates and with both: those that go on over all sides, and those with a value for
    each face or for each three faces, which have seams."""
    made = []
    for shape in meshes():
        points, faces = shape.points, shape.faces
        normals, coordinates = smooth(points, faces), unrolled(points)
        plain = [[(p, p, p) for p in face] for face in faces]
        made.append(Coated(f"{shape.name} with normals", points, None, normals, plain))
        made.append(Coated(f"{shape.name} with coordinates", points, coordinates, None, plain))
        made.append(Coated(f"{shape.name} with both", points, coordinates, normals, plain))
        by_face = [across(*(points[p][:3] for p in face)) for face in faces]
        made.append(Coated(f"{shape.name} with flat normals", points, None, by_face, [[(p, p, f) for p in face] for f, face in enumerate(faces)]))
        charts = [it for k in range(len(faces) // 3 + 1) for it in unrolled(points, 7 * k % 5)]
        cut = [[(p, len(points) * (f // 3) + p, f) for p in face] for f, face in enumerate(faces)]
        made.append(Coated(f"{shape.name} with charts", points, charts, None, cut))
        made.append(Coated(f"{shape.name} with charts and flat normals", points, charts, by_face, cut))
    return made


def coated_clouds():
    """Clouds with normals: all about, along the axes and on the borders of the octahedron, and one without length."""
    draw = random.Random(11)
    axes = [tuple(sign * (k == j) for j in range(3)) for k in range(3) for sign in (1, -1)]
    edges = [(x, y, z) for x in (-1, 0, 1) for y in (-1, 0, 1) for z in (-1, 0, 1)]
    normals = axes + edges + [tuple(draw.randrange(-500, 501) for _ in range(3)) for _ in range(200)]
    points = [tuple(draw.randrange(-1000, 1000) for _ in range(3)) for _ in normals]
    return [Coated("cloud with normals", points, None, normals, None), Coated("one point with a normal", points[:1], None, [(-3, 1, 2)], None)]


def clouds():
    draw = random.Random(5)
    rows = [tuple(draw.randrange(-1000, 1000) for _ in range(3)) for _ in range(40)]
    coloured, properties = with_column(rows, lambda k: (k, 255 - k, 3), "uchar red", "uchar green", "uchar blue")
    return [Shape("cloud", rows, None), Shape("cloud of colours", coloured, None, properties)]


def canonical(s, t, bits):
    """The canonical spelling of an octahedral value: at the border of the square two spellings mean one vector."""
    most = (1 << bits) - 2
    if s in (0, most) and t in (0, most):
        return most, most
    if s == 0 and 2 * t > most or s == most and 2 * t < most:
        return s, most - t
    if t == 0 and 2 * s > most or t == most and 2 * s < most:
        return most - s, t
    return s, t


def with_heads(name, points, faces, *attributes):
    """A shape whose points have positions and behind them these attributes, each as its bits (None: texture coordinates, else octahedral normals)
    and its values."""
    properties, comments = ["int x", "int y", "int z"], ["drc attr 0 0 5 3 0 0"]
    squares = []
    for number, (bits, values) in enumerate(attributes, 1):
        points = [row + value for row, value in zip(points, values)]
        comments.append(f"drc attr {number} 3 5 2 0 {number}" if bits is None else f"drc attr {number} 1 9 2 0 {number}")
        properties += ["int s", "int t"] if bits is None else [f"int a{number}_0", f"int a{number}_1"]
        squares += [] if bits is None else [f"drc octa {number} {bits}"]
    return Shape(name, points, faces, tuple(properties), tuple(comments + squares))


def octahedral():
    """Small meshes of octahedral normals and of texture coordinates, as integers: each with what `--predict shape` gives its attributes."""
    squares = lambda count, bits: [canonical(37 * k % ((1 << bits) - 1), (11 * k * k + 5) % ((1 << bits) - 1), bits) for k in range(count)]
    charts = lambda count: [(3 * k % 50, k * k % 41) for k in range(count)]
    made = []
    points, faces = scan(5, 3)
    made.append((with_heads("scan with octahedral normals", points, faces, (8, squares(len(points), 8))), [1, 6]))
    rows, cut = split_cells(3)
    places = [row[:3] for row in rows]
    made.append((with_heads("octahedral normals and charts over seams", places, cut, (8, squares(len(rows), 8)), (None, charts(len(rows)))), [1, 6, 5]))
    points, faces = lattice(3)
    made.append((with_heads("octahedral values in other spellings", points, faces, (4, [(0, 8 + k % 6) for k in range(len(points))])), [1, -2]))
    far = [tuple(it * (((1 << 31) - 2) // 3) for it in row[:2]) + row[2:] for row in points]
    made.append((with_heads("charts that can't be projected", far, faces, (None, [(1000 + 3 * k, 2000 - k) for k in range(len(far))])), [1, 1]))
    return made


def on_square(vector, bits):
    """The canonical octahedral value of a vector of integers, rounded to so many bits; that of (1, 0, 0) where it has no length."""
    half, size = (1 << bits - 1) - 1, sum(map(abs, vector))
    if size == 0:
        return half, half
    x, y = (abs(it) * half // size * (-1 if it < 0 else 1) for it in vector[:2])
    z = (half - abs(x) - abs(y)) * (-1 if vector[2] < 0 else 1)
    if x >= 0:
        return canonical(y + half, z + half, bits)
    return canonical(abs(z) if y < 0 else 2 * half - abs(z), abs(y) if z < 0 else 2 * half - abs(y), bits)


def on_grid(pairs, bits):
    """Texture coordinates as integers of so many bits: the least of each component is 0, the greatest of the wider one has all bits."""
    lows = [min(column) for column in zip(*pairs)]
    width = max(max(column) - low for column, low in zip(zip(*pairs), lows)) or 1
    return [tuple(int((it - low) / width * ((1 << bits) - 1)) for it, low in zip(pair, lows)) for pair in pairs]


def as_integers(it, normal_bits, coordinate_bits):
    """What a mesh or cloud of floats is with octahedral normals and texture coordinates of so many bits, and its positions as they are."""
    faces = [[(p, None, p)] for p in range(len(it.positions))] if it.faces is None else it.faces
    rows = list(dict.fromkeys(corner for face in faces for corner in face))
    number = {corner: k for k, corner in enumerate(rows)}
    attributes, name = [], it.name
    if it.coordinates:
        pairs, name = on_grid(it.coordinates, coordinate_bits), f"{name}, coordinates of {coordinate_bits} bits"
        attributes.append((None, [pairs[row[1]] for row in rows]))
    if it.normals:
        normals, name = [on_square(vector, normal_bits) for vector in it.normals], f"{name}, normals of {normal_bits} bits"
        attributes.append((normal_bits, [normals[row[2]] for row in rows]))
    points = [tuple(it.positions[row[0]][:3]) for row in rows]
    numbered = None if it.faces is None else [tuple(number[corner] for corner in face) for face in faces]
    return with_heads(name, points, numbered, *attributes)


def small_octahedral():
    """Two faces each: octahedral normals, and normals and texture coordinates over a seam."""
    points, faces = lattice(1)
    normals = [canonical(5 * k % 15, (3 * k + 1) % 15, 4) for k in range(6)]
    rows = [row[:3] for row in two_labels().points]
    coordinates = [(k, 4 * k % 5) for k in range(6)]
    return [
        with_heads("two faces with octahedral normals", points, faces, (4, normals[:4])),
        with_heads("two faces with normals and charts", rows, two_labels().faces, (4, normals), (None, coordinates)),
    ]


def octahedral_cloud():
    points = [(5 * k, k * k % 17, 3 - k) for k in range(20)]
    return with_heads("cloud with octahedral normals", points, None, (8, [canonical(13 * k, 7 * k, 8) for k in range(20)]))


def read_text(text):
    """A PLY text of `drc dec`: its comments, its rows and its faces (None: a cloud)."""
    head, _, body = text.partition(b"end_header\n")
    lines = head.decode().splitlines()
    count = int(next(it for it in lines if it.startswith("element vertex")).split()[2])
    rows = [tuple(map(int, it.split())) for it in body.decode().splitlines()]
    is_mesh = any(it.startswith("element face") for it in lines)
    faces = [row[1:] for row in rows[count:]] if is_mesh else None
    return [it for it in lines if it.startswith("comment drc")], rows[:count], faces


KINDS = {"char": "b", "uchar": "B", "short": "h", "ushort": "H", "int": "i", "uint": "I", "float": "f"}


def read_binary(data):
    """A binary PLY file of Google's draco: the names of its columns, its rows and its faces."""
    return read_corners(data)[:3]


def read_corners(data):
    """The same, and for each face the texture coordinates of its corners (None: without), which such a file has with its faces."""
    head, _, body = data.partition(b"end_header\n")
    lines = head.decode().splitlines()
    count = int(next(it for it in lines if it.startswith("element vertex")).split()[2])
    found = [it for it in lines if it.startswith("element face")]
    faces = int(found[0].split()[2]) if found else 0
    properties = [it.split()[1:] for it in lines if it.startswith("property") and not it.startswith("property list")]
    row = struct.Struct("<" + "".join(KINDS[it[0]] for it in properties))
    rows = [row.unpack_from(body, k * row.size) for k in range(count)]
    has_coordinates = "property list uchar float texcoord" in lines
    place, made, coordinates = count * row.size, [], []
    for _ in range(faces):
        made.append(struct.unpack_from("<3i", body, place + 1))
        place += 13
        if has_coordinates:
            numbers = struct.unpack_from("<6f", body, place + 1)
            coordinates.append([numbers[k : k + 2] for k in (0, 2, 4)])
            place += 25
    return [it[1] for it in properties], rows, made, coordinates if has_coordinates else None


def short(x):
    """The nearest float of 32 bits. Of a sum, difference, product, quotient or root of two such floats, rounded by Python to 64 bits, it is the one that is nearest to
    the exact one too."""
    return struct.unpack(">f", struct.pack(">f", x))[0]


def real(word):
    """The float of 32 bits with this pattern, in eight hexadecimal digits."""
    return struct.unpack(">f", bytes.fromhex(word))[0]


def from_grid(numbers, bits, width, minima):
    """What integers on a grid stand for, in floats of 32 bits."""
    step = short(width / short((1 << bits) - 1))
    return tuple(short(low + short(short(number) * step)) for number, low in zip(numbers, minima))


def from_octahedron(s, t, bits):
    """The normal that two integers of so many bits stand for, in floats of 32 bits as Google's draco computes them."""
    scale = short(2 / short((1 << bits) - 2))
    y, z = (short(short(short(it) * scale) - 1) for it in (s, t))
    x = short(short(1 - abs(y)) - abs(z))
    off = max(-x, 0.0)
    y, z = (short(it + (off if it < 0 else -off)) for it in (y, z))
    square = short(short(short(x * x) + short(y * y)) + short(z * z))
    if square < 1e-6:
        return 0.0, 0.0, 0.0
    inverse = short(1 / short(math.sqrt(square)))
    return tuple(short(it * inverse) for it in (x, y, z))


def dequantised(comments, rows):
    """The rows with the first attribute's three columns as floats of 32 bits, where a comment gives its quantisation."""
    for line in comments:
        found = re.match(r"comment drc quant 0 (\d+) ([0-9a-f]{8}) ([0-9a-f]{8}) ([0-9a-f]{8}) ([0-9a-f]{8})", line)
        if found:
            grid = int(found[1]), real(found[2]), [real(found[k]) for k in (3, 4, 5)]
            return [from_grid(row[:3], *grid) + row[3:] for row in rows]
    return rows


def floats_by_usage(comments, rows):
    """For each usage the values of its first attribute, in floats of 32 bits where a comment says how."""
    made, column = {}, 0
    heads = [it.split()[3:] for it in comments if it.startswith("comment drc attr")]
    grids = {words[3]: words[4:] for words in (it.split() for it in comments) if words[2] == "quant"}
    squares = {words[3]: int(words[4]) for words in (it.split() for it in comments) if words[2] == "octa"}
    for number, usage, _, comps, *_ in heads:
        part = [row[column : column + int(comps)] for row in rows]
        column += int(comps)
        if number in grids:
            bits, width, *minima = grids[number]
            part = [from_grid(row, int(bits), real(width), list(map(real, minima))) for row in part]
        elif number in squares:
            part = [from_octahedron(*row, squares[number]) for row in part]
        made.setdefault(int(usage), part)
    return made
