"""Reading files, and the one rule by which all programs of this folder write.

A path `-` is standard input, or standard output. An input is never written over, whatever name or link leads to it. A file that is there
already is replaced only where that was asked for. A file is written beside its place and renamed when it is whole, so that a failure leaves
what was there; a link stays, and the file that it leads to is written so. What isn't a regular file, as a device or a pipe, is opened and
written to."""
import json
import os
import pathlib
import stat
import tempfile
import urllib.parse

from .trouble import BAD_WORDS, READING, WRITING, Trouble

STANDARD_INPUT = ("-", "/dev/stdin", "/dev/fd/0", "/proc/self/fd/0")
STANDARD_OUTPUT = ("-", "/dev/stdout", "/dev/fd/1", "/proc/self/fd/1")
PART, OLD = ".part", ".old"  # endings of what is written, and of what is replaced, until all of it is done
NAME_KEPT = 40  # so many characters of a file's name are in that of its part, which has to fit the longest name of a file system


def is_standard_input(path):
    return str(path) in STANDARD_INPUT


def is_standard_output(path):
    return str(path) in STANDARD_OUTPUT


def read(path):
    """A file's bytes; `-` is standard input."""
    try:
        return open(0, "rb", closefd=False).read() if is_standard_input(path) else pathlib.Path(path).read_bytes()
    except OSError as why:
        raise Trouble(f"{path} can't be read: {why.strerror}", READING) from why


def is_same(path, data):
    """Whether a regular file is there and has these bytes."""
    try:
        return os.path.isfile(path) and os.path.getsize(path) == len(data) and pathlib.Path(path).read_bytes() == data
    except OSError:
        return False


def parts_of(path):
    """The files that an input is made of: itself, and of a glTF document the buffers and images beside it."""
    is_gltf = pathlib.Path(path).suffix.lower() in (".gltf", ".glb") and os.path.isfile(path)
    return [path, *(parts_of_gltf(path) if is_gltf else ())]


def parts_of_gltf(path):
    try:
        with open(path, "rb") as file:
            head = file.read(20)
            text = file.read(int.from_bytes(head[12:16], "little")) if head[:4] == b"glTF" else head + file.read()
        document = json.loads(text.decode("utf-8-sig"))
    except (OSError, ValueError, RecursionError):
        return []  # whoever reads it says what is wrong
    tables = [document.get(name) for name in ("buffers", "images")] if isinstance(document, dict) else []
    names = [it.get("uri") for table in tables if isinstance(table, list) for it in table if isinstance(it, dict)]
    folder = os.path.dirname(os.path.abspath(path))
    return [os.path.join(folder, urllib.parse.unquote(it).replace("\0", "")) for it in names if isinstance(it, str) and not it.startswith("data:")]


# What a path names.


def status_of(path, is_output):
    """What the system says of a file, links followed; None where nothing is there."""
    is_standard = is_standard_output(path) if is_output else is_standard_input(path)
    try:
        return os.fstat(1 if is_output else 0) if is_standard else os.stat(path)
    except FileNotFoundError:
        return None
    except OSError as why:
        if is_output:
            raise Trouble(f"{path} can't be written: {why.strerror}", WRITING) from why
        return None  # whoever reads it says what is wrong


def identity(status):
    """What tells a file from all others, whatever its names are; None of what can't be lost: devices without a store, and pipes."""
    if status is None:
        return None
    if stat.S_ISBLK(status.st_mode):
        return "device", status.st_rdev
    return ("file", status.st_dev, status.st_ino) if stat.S_ISREG(status.st_mode) else None


def is_kept_out(path, status):
    """Whether a file stands at an output's place, which only leave to replace it gives free."""
    return status is not None and stat.S_ISREG(status.st_mode) and not is_standard_output(path)


def is_poured(path, status):
    """Whether an output is opened and written to, since it is no regular file."""
    return is_standard_output(path) or (status is not None and not stat.S_ISREG(status.st_mode))


def already(path):
    return Trouble(f"{path} is there already; --force replaces it", WRITING)


def identities(paths):
    """The inputs by what tells them from all other files."""
    return {who: path for path in paths for who in [identity(status_of(path, False))] if who}


def check(inputs, outputs, may_replace=False):
    """Refuses an output that is an input, or a folder, or a file that is there already and mustn't be replaced, and two outputs that are
    one file. An output None is passed over."""
    read_there, taken = identities(inputs), {}
    for path in outputs:
        if path is None:
            continue
        status = status_of(path, True)
        who = identity(status)
        if status is not None and stat.S_ISDIR(status.st_mode):
            raise Trouble(f"{path} can't be written: it is a folder", WRITING)
        if who in read_there:
            name = "" if str(read_there[who]) == str(path) else f", {read_there[who]}"
            raise Trouble(f"{path} is an input{name}: an input is never written over", BAD_WORDS)
        place = who or ("standard output" if is_standard_output(path) else os.path.realpath(path))
        if place in taken and not (status is not None and stat.S_ISCHR(status.st_mode)):
            raise Trouble(f"two of the outputs are one: {taken[place]} {path}", BAD_WORDS)
        taken[place] = path
        if is_kept_out(path, status) and not may_replace:
            raise already(path)


# Writing.


def write(path, data, inputs=(), may_replace=False):
    write_all({path: data}, inputs, may_replace)


def write_all(wanted, inputs=(), may_replace=False):
    """Writes files, each beside its place, and renames them when all are whole. After a failure none of them is new: what was there is
    there. A path None is passed over."""
    wanted = {path: data for path, data in wanted.items() if path is not None}
    check(inputs, wanted, may_replace)
    parts = []
    path = None
    try:
        poured = []
        for path, data in wanted.items():
            if is_poured(path, status_of(path, True)):
                poured.append((path, data))
            else:
                parts.append(Part(path))
                parts[-1].fill(data)
        for path, data in poured:
            pour(path, data)
        for part in parts:
            path = part.path
            part.put(may_replace, len(parts) > 1)
    except BaseException as why:
        for part in reversed(parts):
            part.undo()
        if isinstance(why, OSError):
            raise Trouble(f"{path} can't be written: {why.strerror}", WRITING) from why
        raise
    for part in parts:
        part.end()


def part_name(name):
    """How the name of what is written beside a file of this name begins."""
    return f".{name[:NAME_KEPT]}."


class Part:
    """A file that is written beside its place until it is whole."""

    def __init__(self, path):
        self.path, self.place = path, os.path.realpath(path)
        self.name = self.old = None
        self.is_put = self.is_new = False

    def fill(self, data):
        folder, name = os.path.split(self.place)
        handle, self.name = tempfile.mkstemp(prefix=part_name(name), suffix=PART, dir=folder)
        with open(handle, "wb") as file:
            file.write(data)
        try:
            mode = os.stat(self.place).st_mode & 0o777
        except OSError:
            mode = 0o666 & ~umask()
        os.chmod(self.name, mode)

    def put(self, may_replace, keeps_old):
        """Gives the file its place. Without leave to replace, a file that came to be there meanwhile stays as well."""
        self.is_new = not os.path.lexists(self.place)
        if not may_replace:
            place(self.name, self.place, self.path)
        else:
            if keeps_old and not self.is_new:
                self.old = self.name + OLD
                keep(self.place, self.old)
            os.replace(self.name, self.place)
        self.is_put = True

    def undo(self):
        """Takes away what was written, and puts back what was there."""
        if self.old and os.path.lexists(self.old):
            os.replace(self.old, self.place)
            self.end()  # where both are links to one file, renaming does nothing
        elif self.is_put and self.is_new:
            pathlib.Path(self.place).unlink(missing_ok=True)
        if self.name and not self.is_put:
            pathlib.Path(self.name).unlink(missing_ok=True)

    def end(self):
        if self.old:
            pathlib.Path(self.old).unlink(missing_ok=True)


def keep(path, name):
    """Gives a file a second name; where the file system has no such links, that name alone."""
    try:
        os.link(path, name)
    except OSError:
        os.rename(path, name)


def place(name, where, path):
    """Renames a file unless another one is at its new place."""
    try:
        os.link(name, where)
    except FileExistsError as why:
        raise already(path) from why
    except OSError:  # a file system without links
        if os.path.lexists(where):
            raise already(path) from None
        os.rename(name, where)
    else:
        os.unlink(name)


def pour(path, data):
    """Writes to what isn't a regular file, which stays what it is."""
    if is_standard_output(path):
        with open(1, "wb", closefd=False) as file:
            file.write(data)
    else:
        with open(os.open(path, os.O_WRONLY), "wb") as file:
            file.write(data)


def umask():
    mask = os.umask(0)
    os.umask(mask)
    return mask
