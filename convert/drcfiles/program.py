"""Finding `drc` and running it."""
import os
import pathlib
import re
import shutil
import subprocess
from typing import NamedTuple

from .faults import in_words
from .trouble import BAD_WORDS, MEMORY, MISSING, READING, REFUSED, WRITING, Refused, Trouble

TOP = pathlib.Path(__file__).resolve().parents[2]  # the repository, or PREFIX/share/drc where ./install put this
OWN = (TOP / "crates/drc/out/drc", TOP.parents[1] / "bin/drc" if TOP.parts[-2:] == ("share", "drc") else None)

KD_MAGIC = b"KDPTS"
PROFILE = ("--profile", "3")  # what streams are read by: octahedral normals and texture coordinates predicted by positions too


def find(given=None):
    """The program `drc`: the one given, that of the variable DRC, the one that this repository built or that was installed with this, or that
    of the PATH, in this order."""
    named = given or os.environ.get("DRC")
    if named:
        found = shutil.which(named)
        if not found:
            raise Trouble(f"{named} isn't a program that can be run; --drc and the variable DRC name the built `drc`", MISSING)
        return found
    for own in filter(None, OWN):
        if os.access(own, os.X_OK):
            return str(own)
    found = shutil.which("drc")
    if not found:
        raise Trouble("the program `drc` isn't there: build it by ./drc in the repository, or name it by --drc or the variable DRC", MISSING)
    return found


class Ran(NamedTuple):
    status: int
    out: bytes
    note: str


class Drc:
    """The program `drc`, by its path. Each call raises Refused where the input is refused, and Trouble where the program fails."""

    def __init__(self, path):
        self.path = path

    def run(self, words, data):
        """One command, whatever its status."""
        try:
            ran = subprocess.run([self.path, *words], input=data, stdout=subprocess.PIPE, stderr=subprocess.PIPE, check=False)
        except OSError as why:
            raise Trouble(f"{self.path} can't be run: {why.strerror}", MISSING) from why
        return Ran(ran.returncode, ran.stdout, ran.stderr.decode("utf-8", "replace"))

    def done(self, words, data, accepted=(0,)):
        """One command that has to end with an accepted status, by default 0; else the trouble in words."""
        ran = self.run(words, data)
        if ran.status in accepted:
            return ran
        note = ran.note.strip().splitlines()
        note = note[-1] if note else ""
        found = re.fullmatch(r"refused (\w+) (\d+)", note)
        if ran.status == REFUSED and found:
            raise Refused(found[1], int(found[2]), in_words(found[1], found[2]))
        what = f"drc {' '.join(words)}"
        if ran.status == MEMORY:
            raise Trouble(f"{what}: out of memory", MEMORY)
        if ran.status < 0:
            raise Trouble(f"{what} was ended by signal {-ran.status}", MISSING)
        if "bad word" in note:
            raise Trouble(f"{what}: this program has no such command or option ({note})", MISSING)
        raise Trouble(f"{what}: status {ran.status} {note}", ran.status if ran.status in (READING, WRITING) else MISSING)

    def enc(self, text, options=()):
        """A PLY text to a stream, and the map's text."""
        ran = self.done(["enc", *options], text)
        return ran.out, ran.note

    def writes_profile_three(self):
        """Whether the program codes octahedral normals; an earlier one doesn't know the words."""
        return self.run(["enc", *PROFILE, "--predict", "shape"], b"").status != BAD_WORDS

    def check_profile(self, profile):
        """Refuses profile 3 where the program reads it alone."""
        if profile == 3 and not self.writes_profile_three():
            raise Trouble(f"{self.path} reads profile 3 and doesn't write it; a later one does, and --profile 2 goes without", MISSING)

    def dec(self, stream):
        """A stream, or a kd-tree file, to a PLY text."""
        return self.done(["kd", "dec"] if is_kd(stream) else ["dec", *PROFILE], stream).out

    def info(self, stream):
        """The report of a stream; None of a kd-tree file, of which `drc` gives none."""
        return None if is_kd(stream) else self.done(["info", *PROFILE], stream).out.decode()


def is_kd(data):
    """Whether a file begins as `drc kd enc` begins its files (docs/FORMAT.md, "Clouds as a kd-tree")."""
    return data.startswith(KD_MAGIC)
