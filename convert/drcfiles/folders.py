"""What there is to be done in a folder: a job for each file, and what is passed over."""
import collections
import os
import pathlib
import re

from . import files, gltf_files, grid_files, packing, program, reading
from .many import FAILED, PASSED_OVER, Job, Row, map_before
from .trouble import BAD_WORDS, READING, Trouble

STREAMS, STREAMS_AND_CLOUDS, GLTF = (".drc",), (".drc", ".kd"), (".glb", ".gltf")
WANTED = {  # by what is to be done: which files it takes, and what these are called
    "pack": (reading.is_common, "meshes"),
    "verify": (reading.is_common, "meshes"),
    "recode": (lambda it: it.suffix.lower() in STREAMS, ".drc files"),
    "unpack": (lambda it: it.suffix.lower() in STREAMS_AND_CLOUDS, ".drc files"),
    "gltf": (lambda it: it.suffix.lower() in GLTF, "glTF files"),
}
REPORT = re.compile(r"drc-many-\w+\.csv")


def is_same_folder(one, other):
    return one.resolve() == other.resolve() or (other.exists() and os.path.samefile(one, other))


class Folder:
    """The files of a folder and of the folders in it, in order, but for hidden ones and those of the outputs' folder; with them links to
    folders, which aren't followed. Folders that can't be read are named."""

    def __init__(self, folder, out):
        self.folder, self.is_out = pathlib.Path(folder).resolve(), is_same_folder(pathlib.Path(folder), pathlib.Path(out))
        out = pathlib.Path(out).resolve()
        self.files, self.unread = [], []
        for place, folders, names in os.walk(self.folder, onerror=lambda why: self.unread.append(why)):
            place = pathlib.Path(place)
            folders[:] = [it for it in folders if self.is_out or (place / it).resolve() != out]
            self.files += [place / it for it in [*names, *(it for it in folders if (place / it).is_symlink())] if not it.startswith(".")]
        self.files.sort()


def targets_of(names, ending):
    """The name of each file's output. Files whose outputs would be one keep their own endings in the names of these."""
    whole = set()
    while True:
        made = {name: name.with_name(name.name + ending) if name in whole else name.with_suffix(ending) for name in names}
        count = collections.Counter(made.values())
        more = {name for name in names if count[made[name]] > 1} - whole
        if not more:
            return made
        whole |= more


def settings_of(given, drc):
    """How the files are packed; a file that `--grid` names is read here, once for all of them."""
    if given.do not in ("pack", "verify", "gltf") or given.do == "gltf" and given.unpack:
        return None
    drc = program.Drc(drc)
    grid = grid_files.grid_of(drc, given.grid)
    return gltf_files.settings_of(given, drc, grid) if given.do == "gltf" else packing.settings_of(given, grid)


def words_of(given, settings, options):
    """What is to be done, in words, by which a later run knows whether it was done."""
    words = [given.do, *([str(settings)] if settings else []), *options]
    words += [f"--to {given.to}"] if given.do == "unpack" else []
    return " ".join(words + [f"--{name}" for name in ("ascii", "maps", "unpack", "any_size") if getattr(given, name, False)])


def jobs_of(given, drc):
    """A job for each file, and a row for each file that is passed over."""
    if not pathlib.Path(given.folder).is_dir():
        raise Trouble(f"{given.folder} is no folder", READING)
    found, out = Folder(given.folder, given.out), pathlib.Path(given.out).resolve()
    if found.is_out and given.do in ("recode", "unpack", "gltf"):
        raise Trouble(f"{given.do} doesn't write into the folder that it reads", BAD_WORDS)
    is_wanted, _ = WANTED[given.do]
    sources = [it for it in found.files if it.is_file() and is_wanted(it)]
    settings = settings_of(given, drc)
    options = packing.choices_of(given) if given.do == "recode" else ("--surface",) if getattr(given, "surface", False) else ()
    ending = {"unpack": f".{getattr(given, 'to', '')}", "gltf": ".glb"}.get(given.do, ".drc")
    targets = targets_of([it.relative_to(found.folder) for it in sources], ending)
    words, has_map = words_of(given, settings, options), given.do == "verify" or getattr(given, "maps", False)
    jobs = []
    for name, target in targets.items():
        target = out / target
        jobs.append(Job(given.do, str(name), str(found.folder / name), str(target), words, drc, settings, options, map_of(target) if has_map else None,
                        is_text=getattr(given, "ascii", False), is_forced=given.force, any_size=getattr(given, "any_size", False)))
    return jobs, passed_over(found, jobs, given, words)


def inputs_of(jobs):
    """All files that the jobs read."""
    found = [part for job in jobs for part in files.parts_of(job.source)]
    found += [str(map_before(job)) for job in jobs if job.do == "recode"]
    return found + [path for job in jobs if job.do == "verify" for path in (job.out, job.map)]


def passed_over(found, jobs, given, words):
    """A row for each file that isn't one of those which are wanted, nor belongs to one of them or to the outputs."""
    theirs = [path for job in jobs for path in (job.source, job.out, map_of(job.out))]
    known = {os.path.realpath(path) for path in [*inputs_of(jobs), *theirs, given.report] if path}
    rows = []
    for path in found.files:
        if os.path.realpath(path) not in known and not REPORT.fullmatch(path.name) and not (path.suffix == ".map" and path.with_suffix(".drc").exists()):
            kind = path.suffix.lower() if path.is_file() else "linked folder" if path.is_dir() else "no file"
            size = os.path.getsize(path) if path.is_file() else 0
            rows.append(Row(str(path.relative_to(found.folder)), PASSED_OVER, kind, "", size, 0, "", "", words, f"it is none of {WANTED[given.do][1]}"))
    for why in found.unread:
        line = f"{why.filename} can't be read: {why.strerror}"
        rows.append(Row(os.path.relpath(why.filename, found.folder), FAILED, f"status {READING}", "", 0, 0, "", "", words, line))
    return rows


def map_of(path):
    return str(pathlib.Path(path).with_suffix(".map"))
