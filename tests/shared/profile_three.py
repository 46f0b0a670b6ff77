"""Streams of profile 3, made by hand: octahedral normals, and texture coordinates that are predicted by positions. Each row has a title, the bytes, and
what is due: the lines of the points behind `end_header` and of the faces, or the note."""

CLOUD, EDGEBREAKER = b"DRACO\2\3\0\0\0\0", b"DRACO\2\2\1\1\0\0"
POSITION, NORMAL, TEXTURE = 0, 1, 3  # usages
INT32, FLOAT32 = 5, 9  # data types
AS_INTEGERS, OCTAHEDRAL = 1, 3  # codings
NONE, DIFFERENCE, BY_TEXTURE, BY_NORMAL = b"\xfe", b"\0", b"\5", b"\6"  # predictions
WRAP, OCTAHEDRON = b"\1", b"\3"  # transforms
ENDLESS = b"\1\1\0"  # a block of bits with one coded byte: bits are pulled from it for ever
ZEROS = b"\xff\2\x66\x40"  # six bits 0
LOW, MOST = -(1 << 31), (1 << 31) - 1


def four(number):
    return (number & 0xFFFF_FFFF).to_bytes(4, "little")


def zigzag(number):
    return 2 * number if number >= 0 else -2 * number - 1


def head(usage, dtype, comps, id):
    return bytes([usage, dtype, comps, 0, id])


def plain(numbers, width=1):
    """Numbers as they are, in so many bytes each."""
    return bytes([0, width]) + b"".join(it.to_bytes(width, "little") for it in numbers)


def cloud(count, values, usage=NORMAL):
    """A cloud of so many points with octahedral normals alone."""
    return CLOUD + four(count) + b"\1\1" + head(usage, FLOAT32, 3, 0) + bytes([OCTAHEDRAL]) + values


def differences(corrections, greatest, bits, width=1, centre=7):
    """Octahedral values by difference: the greatest number says the digits of the corrections, the bits the square of the values."""
    return DIFFERENCE + OCTAHEDRON + plain(corrections, width) + four(greatest) + four(centre) + bytes([bits])


# Two faces with one edge. Their entries stand at the corners 1, 2, 0 and 4, and with a seam at 1, 2, 0, 4, 5 and 3.
GLUED, SEAM = b"\xff\1\x11", b"\1\1\x10"
AT_POSITIONS = len(EDGEBREAKER) + 15 + 7 + 7 + 7  # where the values of positions begin
POSITIONS = [(0, 2, 0), (2, 0, 0), (2, 2, 1), (0, 0, 0)]


def two_faces(values, usage, dtype, comps, coding, positions=POSITIONS, seam=False):
    """Positions of the entries, as they are, and another attribute of these values behind them."""
    surface = b"\0\4\2\1\2\0\0\1\x1f" + GLUED + (SEAM if seam else GLUED)
    links = b"\2" + b"\xff\0\0" + bytes([0, seam, 0])
    decoders = b"\1" + head(POSITION, INT32, 3, 0) + bytes([AS_INTEGERS]) + b"\1" + head(usage, dtype, comps, 1) + bytes([coding])
    places = NONE + plain([zigzag(it) for row in positions for it in row], 4)
    return EDGEBREAKER + surface + links + decoders + places + values


PLACE = AT_POSITIONS + 3 + 48  # where the values of the other attribute begin


def normals(corrections, greatest, bits, flips, **more):
    values = BY_NORMAL + OCTAHEDRON + plain(corrections) + four(greatest) + four(7) + flips + bytes([bits])
    return two_faces(values, NORMAL, FLOAT32, 3, OCTAHEDRAL, **more)


def coordinates(corrections, count, orientations, low, high, width=1, **more):
    values = BY_TEXTURE + WRAP + plain(corrections, width) + four(count) + orientations + four(low) + four(high)
    return two_faces(values, TEXTURE, INT32, 2, AS_INTEGERS, **more)


def changed(stream, place, more):
    return stream[:place] + more + stream[place + len(more) :]


THREE_NORMALS = cloud(3, differences([7, 7, 7, 0, 10, 7], 15, 4))
TWO_NORMALS = normals([13, 4, 13, 1, 1, 4, 0, 0], 15, 4, b"\1\2\x40\x40")
SIX_NORMALS = normals([0, 3] * 3 + [0] * 6, 7, 3, ZEROS, seam=True)
FLAT = [(0, 4, 0), (4, 0, 0), (4, 4, 0), (0, 0, 0)]
FOUR_COORDINATES = coordinates([0, 3, 3, 4, 0, 2, 0, 0], 2, b"\x80\2\x80\x70", 0, 9, positions=FLAT)
STREAMS = [("a cloud of normals", THREE_NORMALS), ("two faces with normals", TWO_NORMALS), ("a seam of normals", SIX_NORMALS), ("two faces with coordinates", FOUR_COORDINATES)]

# Places of items, from the front.
AT_CODING, AT_PREDICTION, AT_GREATEST, AT_BITS = 22, 23, 33, 41  # of the cloud
AT_COUNT = PLACE + 2 + 2 + 8  # of the coordinates

FAR, NEAR = (1 << 30) - 1, (1 << 30) - 2
WIDE = [(0, 0, 0), (FAR, FAR, FAR), (0, 0, 0), (FAR, FAR, FAR)]  # positions of 30 bits: the first edge, and a face at each end of it
# three times the square of FAR is below 2^63, and goes into it twice

# an edge whose square is 2^64 and 18533, and a face across of it
FARTHEST = [(LOW, 0, 0), (MOST, 92682, 0), (LOW, 0, 1000), (MOST, 92682, 0)]


def wide(first, *third, count=4):
    """Coordinates whose first entry is given, the second one being 0, with positions of 30 bits, the third of which may be given."""
    positions = [*WIDE[:2], third or WIDE[2], WIDE[3]]
    corrections = [zigzag(it) for it in (*first, *(-it for it in first), 0, 0, 0, 0)]
    return coordinates(corrections, count, ENDLESS, -FAR, FAR, 4, positions=positions)


ROWS = [
    ("octahedral values by difference", THREE_NORMALS, "7 7\n14 7\n4 0\n"),
    ("the centre is ignored", changed(THREE_NORMALS, AT_GREATEST + 4, b"\t\t\t\t"), "7 7\n14 7\n4 0\n"),
    ("integers as octahedral", changed(THREE_NORMALS, 18, b"\5"), f"refused Coding {AT_CODING}"),
    ("two components as octahedral", changed(THREE_NORMALS, 19, b"\2"), f"refused Coding {AT_CODING}"),
    ("normals of a cloud by positions", changed(THREE_NORMALS, AT_PREDICTION, BY_NORMAL), f"refused Prediction {AT_PREDICTION}"),
    ("octahedral values by a parallelogram", changed(THREE_NORMALS, AT_PREDICTION, b"\1"), f"refused Prediction {AT_PREDICTION}"),
    ("octahedral values by wrap", changed(THREE_NORMALS, AT_PREDICTION + 1, WRAP), f"refused Transform {AT_PREDICTION + 1}"),
    ("octahedral values that aren't canonicalised", changed(THREE_NORMALS, AT_PREDICTION + 1, b"\2"), f"refused Transform {AT_PREDICTION + 1}"),
    ("an even greatest number", changed(THREE_NORMALS, AT_GREATEST, b"\x0e"), f"refused QuantBits {AT_GREATEST}"),
    ("a greatest number of 0", changed(THREE_NORMALS, AT_GREATEST, four(0)), f"refused QuantBits {AT_GREATEST}"),
    ("a greatest number of one digit", changed(THREE_NORMALS, AT_GREATEST, four(1)), f"refused QuantBits {AT_GREATEST}"),
    ("a greatest number of 31 digits", changed(THREE_NORMALS, AT_GREATEST, four(MOST)), f"refused QuantBits {AT_GREATEST}"),
    ("a greatest number of 32 digits", changed(THREE_NORMALS, AT_GREATEST, four(-1)), f"refused QuantBits {AT_GREATEST}"),
    ("a correction above the square", changed(THREE_NORMALS, 27, b"\x0f"), f"refused ValueRange {AT_PREDICTION}"),
    ("values outside the square of their bits", changed(THREE_NORMALS, AT_BITS, b"\3"), f"refused ValueRange {AT_PREDICTION}"),
    ("no bits", changed(THREE_NORMALS, AT_BITS, b"\0"), f"refused QuantBits {AT_BITS}"),
    ("one bit", changed(THREE_NORMALS, AT_BITS, b"\1"), f"refused QuantBits {AT_BITS}"),
    ("31 bits", changed(THREE_NORMALS, AT_BITS, b"\x1f"), f"refused QuantBits {AT_BITS}"),
    ("without the bits", THREE_NORMALS[:-1], f"refused Short {AT_BITS}"),
    ("fewer digits than bits", cloud(3, differences([2, 2, 0, 1, 1, 0], 3, 30)), "1 1\n1 2\n1 1\n"),
    ("two digits and bits, a correction above", cloud(1, differences([3, 0], 3, 2)), f"refused ValueRange {AT_PREDICTION}"),
    ("30 digits and bits at the end of the square", cloud(2, differences([NEAR, NEAR, NEAR, 0], FAR, 30, 4)), "1 1\n1 2\n"),
    ("30 digits and bits, a correction above", cloud(1, differences([FAR, 0], FAR, 30, 4)), f"refused ValueRange {AT_PREDICTION}"),
    ("values of 30 bits as they are", cloud(2, NONE + plain([0, 2 * NEAR, 2 * NEAR, 0], 4) + b"\x1e"), f"0 {NEAR}\n{NEAR} 0\n"),
    ("a value above 30 bits as it is", cloud(1, NONE + plain([0, 2 * FAR], 4) + b"\x1e"), f"refused ValueRange {AT_PREDICTION}"),
    ("a negative value as it is", cloud(1, NONE + plain([0, 1], 4) + b"\x1e"), f"refused ValueRange {AT_PREDICTION}"),
    ("normals by positions", TWO_NORMALS, "2 2 1 4 3\n0 2 0 4 0\n2 0 0 7 0\n0 0 0 7 0\n3 0 1 2\n3 1 3 2\n"),
    ("normals by positions at a seam", SIX_NORMALS, "2 2 1 6 6\n0 2 0 6 6\n2 0 0 6 6\n0 2 0 3 6\n0 0 0 3 6\n2 0 0 3 6\n3 0 1 2\n3 3 4 5\n"),
    ("normals without positions", changed(TWO_NORMALS, AT_POSITIONS - 13, b"\4"), f"refused NoPosition {PLACE}"),
    ("flips without a probability", changed(TWO_NORMALS, PLACE + 20, b"\0"), f"refused BadProb {PLACE + 20}"),
    ("flips of a block that ends", normals([0] * 8, 15, 4, ENDLESS), "2 2 1 8 2\n0 2 0 8 2\n2 0 0 8 2\n0 0 0 7 0\n3 0 1 2\n3 1 3 2\n"),
    ("normals by positions at both ends of 32 bits", normals([0] * 8, 15, 4, ZEROS, positions=[(LOW,) * 3, (MOST, LOW, 0), (MOST,) * 3, (0, MOST, LOW)]), "2147483647 2147483647 2147483647 1 11\n-2147483648 -2147483648 -2147483648 14 7\n2147483647 -2147483648 0 14 7\n0 2147483647 -2147483648 5 8\n3 0 1 2\n3 1 3 2\n"),
    ("normals by positions of 30 bits, 30 digits", normals([0] * 8, FAR, 30, ZEROS, positions=[(0, FAR, 0), (FAR, 0, 0), (FAR, FAR, 1), (0, 0, FAR)]), "1073741823 1073741823 1 536870911 1073741822\n0 1073741823 0 671088638 805306368\n1073741823 0 0 671088638 805306368\n0 0 1073741823 715827881 715827882\n3 0 1 2\n3 1 3 2\n"),
    ("coordinates by positions", FOUR_COORDINATES, "4 4 0 8 9\n0 4 0 0 8\n4 0 0 8 0\n0 0 0 0 0\n3 0 1 2\n3 1 3 2\n"),
    ("an orientation is left over", changed(FOUR_COORDINATES, AT_COUNT, b"\3"), "4 4 0 8 9\n0 4 0 0 8\n4 0 0 8 0\n0 0 0 0 0\n3 0 1 2\n3 1 3 2\n"),
    ("as many orientations as entries", changed(FOUR_COORDINATES, AT_COUNT, b"\4"), "4 4 0 8 9\n0 4 0 0 8\n4 0 0 8 0\n0 0 0 0 0\n3 0 1 2\n3 1 3 2\n"),
    ("more orientations than entries", changed(FOUR_COORDINATES, AT_COUNT, b"\5"), f"refused FlagCount {AT_COUNT}"),
    ("the most orientations", changed(FOUR_COORDINATES, AT_COUNT, four(-1)), f"refused FlagCount {AT_COUNT}"),
    ("an orientation is missing", changed(FOUR_COORDINATES, AT_COUNT, b"\1"), f"refused FlagsShort {PLACE}"),
    ("no orientation", changed(FOUR_COORDINATES, AT_COUNT, b"\0"), f"refused FlagsShort {PLACE}"),
    ("orientations without a probability", changed(FOUR_COORDINATES, AT_COUNT + 4, b"\0"), f"refused BadProb {AT_COUNT + 4}"),
    ("orientations of a block that ends", coordinates([0, 3, 3, 4, 0, 2, 0, 0], 4, ENDLESS, 0, 9, positions=FLAT), "4 4 0 0 1\n0 4 0 0 8\n4 0 0 8 0\n0 0 0 8 8\n3 0 1 2\n3 1 3 2\n"),
    ("three coordinates", changed(FOUR_COORDINATES, AT_POSITIONS - 4, b"\3"), f"refused Prediction {PLACE}"),
    ("coordinates without positions", changed(FOUR_COORDINATES, AT_POSITIONS - 13, b"\4"), f"refused NoPosition {PLACE}"),
    ("coordinates by another transform", changed(FOUR_COORDINATES, PLACE + 1, OCTAHEDRON), f"refused Transform {PLACE + 1}"),
    ("coordinates too great for the square of an edge", wide((3, 0)), f"refused Projection {PLACE}"),
    ("and without an orientation", wide((3, 0), count=0), f"refused Projection {PLACE}"),
    ("coordinates that are just small enough for it", wide((2, 0)), "0 0 0 2 0\n1073741823 1073741823 1073741823 0 0\n3 0 0 1\n3 0 1 1\n"),
    ("and without an orientation, which is missing then", wide((2, 0), count=0), f"refused FlagsShort {PLACE}"),
    ("a face too far along an edge", wide((1, 0), FAR, FAR, FAR), f"refused Projection {PLACE}"),
    ("a face as far on the other side", wide((1, 0), -FAR, -FAR, -FAR), "-1073741823 -1073741823 -1073741823 2 0\n0 0 0 1 0\n1073741823 1073741823 1073741823 0 0\n3 0 1 2\n3 1 2 2\n"),
    ("a square above 64 bits", coordinates([zigzag(it) for it in (0, 0, 5, 5, 0, 0, 0, 0)], 4, ENDLESS, -FAR, FAR, 4, positions=FARTHEST), "-2147483648 0 1000 36 -36\n-2147483648 0 0 0 0\n2147483647 92682 0 5 5\n3 0 1 2\n3 1 2 2\n"),
    ("coordinates beside a square of nearly 64 bits", coordinates([zigzag(it) for it in (0, 1, 5, 5, 0, 0, 0, 0)], 4, ENDLESS, -FAR, FAR, 4, positions=[(LOW, 0, 0), (MOST, 0, 0), (0, 1, 2), (3, 4, 5)]), f"refused Projection {PLACE}"),
    ("coordinates of 30 bits", coordinates([zigzag(it) for it in (FAR, -FAR, -FAR, FAR, 0, 0, 0, 0)], 4, ENDLESS, -FAR, FAR, 4, positions=FLAT), "4 4 0 1073741823 0\n0 4 0 1073741823 -1073741823\n4 0 0 0 0\n0 0 0 0 -1073741823\n3 0 1 2\n3 1 3 2\n"),
]
