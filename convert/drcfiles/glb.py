"""The container of binary glTF 2.0: its JSON and its binary chunk."""
import json
import struct

from .trouble import Trouble

MAGIC, JSON, BINARY = 0x46546C67, 0x4E4F534A, 0x004E4942


def read_glb(data):
    """The JSON text's value and the bytes of the binary chunk (None where there is none)."""
    if len(data) < 12:
        raise Trouble(f"the GLB is cut: its header has 12 bytes, here are {len(data)}")
    magic, version, length = struct.unpack_from("<III", data)
    if magic != MAGIC or version != 2:
        raise Trouble("the first bytes aren't those of a GLB of version 2")
    if length > len(data):
        raise Trouble(f"the GLB is cut: it declares {length} bytes, here are {len(data)}")
    place, document, binary = 12, None, None
    while place < length:
        if place + 8 > length:
            raise Trouble(f"the GLB is cut in the header of a chunk at byte {place}")
        size, kind = struct.unpack_from("<II", data, place)
        if place + 8 + size > length:
            raise Trouble(f"the GLB is cut in the chunk at byte {place}: it declares {size} bytes, here are {length - place - 8}")
        part = data[place + 8 : place + 8 + size]
        if kind == JSON and document is None:
            try:
                document = json.loads(part.decode("utf-8"))
            except (ValueError, RecursionError) as why:
                raise Trouble(f"the JSON of the GLB, from byte {place + 8} on, can't be read: {why}") from why
        elif kind == BINARY and binary is None:
            binary = bytes(part)
        place += 8 + size
    if not isinstance(document, dict):
        raise Trouble("the GLB has no JSON chunk")
    return document, binary


def write_glb(document, binary=None):
    """The bytes of a GLB; chunks are filled up to four bytes."""
    text = json.dumps(document, separators=(",", ":"), ensure_ascii=False).encode("utf-8")
    text += b" " * (-len(text) % 4)
    parts = [struct.pack("<II", len(text), JSON), text]
    if binary is not None:
        binary = bytes(binary) + b"\0" * (-len(binary) % 4)
        parts += [struct.pack("<II", len(binary), BINARY), binary]
    body = b"".join(parts)
    return struct.pack("<III", MAGIC, 2, 12 + len(body)) + body
