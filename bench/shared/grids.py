"""Grids and clouds as PLY texts."""
import random


def lines(side, points, faces):
    """The lines of a text; all of them are never held at once, since a child's memory counts its parent's."""
    yield f"ply\nformat ascii 1.0\ncomment drc attr 0 0 5 3 0 0\nelement vertex {points}\n"
    yield "property int x\nproperty int y\nproperty int z\n"
    if faces:
        yield f"element face {faces}\nproperty list uchar int vertex_indices\n"
    yield "end_header\n"
    for i in range(points):
        yield f"{4 * (i % side)} {4 * (i // side)} {i * i % 127}\n"
    for cell in range(faces // 2):
        a = cell // (side - 1) * side + cell % (side - 1)
        b = a + side
        yield f"3 {a} {a + 1} {b}\n3 {b} {a + 1} {b + 1}\n"


def write_grid(path, side):
    """A grid of so many points each way."""
    with path.open("w") as text:
        text.writelines(lines(side, side * side, 2 * (side - 1) ** 2))


def write_points(path, shape, count, bits):
    """A cloud of so many points with components of so many bits: "uniform", or of a "surface"."""
    numbers = random.Random(count + bits)
    with path.open("w") as text:
        text.write(f"ply\nformat ascii 1.0\ncomment drc attr 0 0 5 3 0 0\nelement vertex {count}\n")
        text.write("property int x\nproperty int y\nproperty int z\nend_header\n")
        for _ in range(count):
            x, y, z = (numbers.getrandbits(bits) for _ in range(3))
            text.write(f"{x} {y} {z if shape == 'uniform' else x * x + y * y >> bits + 1}\n")
