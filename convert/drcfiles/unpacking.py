"""From a stream to a mesh of floats: `drc dec`, floats by range and bits, and a file of the format that is asked for."""
import pathlib

from . import files, plytext, writing
from .trouble import BAD_WORDS, Refused, Trouble


def unpack(drc, path, ending, is_text=False, say=lambda what: None):
    """The bytes of a file with this ending, its geometry, and what is to be said."""
    write = writing.WRITERS.get(ending)
    if not write:
        raise Trouble(f"the ending {ending or '(none)'} is none of {' '.join(writing.WRITERS)}", BAD_WORDS)
    say("reading")
    stream = files.read(path)
    say("decoding")
    try:
        geometry = plytext.read_text(drc.dec(stream))
    except Refused as why:
        raise Refused(why.word, why.number, f"{path}: {why.line}") from None
    say("writing")
    try:
        data, notes = write(geometry, is_text)
    except Trouble as why:
        raise Trouble(f"{path}: {why.line}", why.status) from None
    return data, geometry, notes


def ending_of(path):
    return pathlib.Path(path).suffix.lower()
