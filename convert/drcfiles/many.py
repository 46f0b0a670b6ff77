"""One file of many: what a worker does with it. The module needs nothing but the files and `drc`, so it runs on any machine that has both."""
import os
import pathlib
from dataclasses import dataclass, fields

from . import files, gltf_files, maps, packing, program, unpacking
from .trouble import READING, REFUSED, Refused, Trouble

DONE, SKIPPED, REFUSED_STATE, NOT_SAME, FAILED = "done", "done before", "refused", "not same", "failed"
PASSED_OVER, DUE = "passed over", "due"  # no file for what is to be done; one whose output an earlier run wrote, and that is to be done anew
NOT_SAME_STATUS = 6
INPUT = "input"  # the kind of what no `drc` refused: a mesh that can't be read
KEPT_AS_IT_WAS = "kept as it was"  # the kind of a stream that would have become longer


@dataclass
class Row:
    """What became of a file: a row of the report."""

    file: str
    state: str
    kind: str
    number: str
    before: int
    after: int
    out: str
    stamp: str  # sizes and times of the files that it speaks of
    words: str  # what was to be done
    line: str


COLUMNS = tuple(it.name for it in fields(Row))


@dataclass
class Job:
    """What is to be done with one file: `pack`, `unpack`, `recode`, `gltf` or `verify`; paths are absolute."""

    do: str
    file: str  # its name within the folder, for the report
    source: str
    out: str  # of `verify` the stream that is there
    words: str
    drc: str
    settings: object = None
    options: tuple = ()
    map: str = None  # where the map is written, of `verify` the one that is there
    is_text: bool = False
    is_own: bool = False  # whether the output that is there was written by an earlier run, and may be replaced
    is_forced: bool = False  # whether any output that is there may be replaced
    any_size: bool = False  # of `recode`: takes the new stream where it is longer than the old one too


@dataclass
class Made:
    """What a job made: its bytes, and what is to be said of it."""

    size: int
    notes: tuple = ()
    kind: str = ""


def stamps(*paths):
    """Sizes and times of change, by which changed files are known."""
    made = []
    for path in paths:
        if path:
            try:
                at = os.stat(path)
                made.append(f"{at.st_size} {at.st_mtime_ns}")
            except OSError:
                made.append("none")
    return made


def of_inputs(job):
    """What a job reads: of `verify` the stream and the map too, of `recode` the old stream's map where one is to be kept."""
    more = {"verify": [job.out, job.map], "recode": [job.map and map_before(job)]}
    return stamps(job.source, *more.get(job.do, []))


def map_before(job):
    return pathlib.Path(job.source).with_suffix(".map")


def of_outputs(job):
    return stamps(job.out, job.map) if job.do != "verify" else []


def is_done(row, job):
    """Whether a row of an earlier run stands for this job: the same words, and all files as they were then."""
    if row is None or row.state not in (DONE, SKIPPED, REFUSED_STATE, NOT_SAME) or row.words != job.words:
        return False
    parts = of_inputs(job) + (of_outputs(job) if row.state in (DONE, SKIPPED) else [])
    return row.stamp.split(" / ")[: len(parts)] == parts


def is_own(row, job):
    """Whether the outputs of a job that are there are those which an earlier run wrote, unchanged since then."""
    there = [path for path in (job.out, job.map) if path and os.path.lexists(path)]
    return bool(there) and row is not None and row.out == job.out and set(stamps(*there)) <= set(row.stamp.split(" / "))


def one(job):
    """Does a job, and gives a row of what came of it, whatever that is."""
    row = Row(job.file, DONE, "", "", 0, 0, "", "", job.words, "")
    inputs = of_inputs(job)  # as they are before they are read
    is_written = False
    try:
        row.before = os.path.getsize(job.source)
        drc = program.Drc(program.find(job.drc if job.drc and os.access(job.drc, os.X_OK) else None))
        made = DOINGS[job.do](drc, job)
        row.after, row.kind, row.line, is_written = made.size, made.kind, "; ".join(made.notes), True
    except Refused as why:
        row.state = NOT_SAME if why.status == NOT_SAME_STATUS else REFUSED_STATE
        row.kind, row.number, row.line = why.word, str(why.number), why.line
    except Trouble as why:
        row.state = REFUSED_STATE if why.status == REFUSED else FAILED
        row.kind, row.line = INPUT if row.state == REFUSED_STATE else f"status {why.status}", why.line
    except OSError as why:
        row.state, row.kind, row.line = FAILED, f"status {READING}", f"{job.source}: {why.strerror}"
    except Exception as why:  # a bad file never stops the rest
        row.state, row.kind, row.line = FAILED, type(why).__name__, f"{job.source}: {' '.join(str(why).split())[:200]}"
    if is_written or job.is_own:  # the outputs that are there are this program's
        row.out, inputs = job.out, inputs + of_outputs(job)
    row.stamp = " / ".join(inputs)
    return row


def put(job, wanted, inputs=()):
    """Writes the outputs of a job. One that is there with these bytes stays: a run that was broken off may have written it."""
    pathlib.Path(job.out).parent.mkdir(parents=True, exist_ok=True)
    may_replace = job.is_own or job.is_forced
    due = wanted if may_replace else {path: data for path, data in wanted.items() if path and not files.is_same(path, data)}
    files.write_all(due, [*files.parts_of(job.source), *inputs], may_replace)


def pack(drc, job):
    packed = packing.pack(drc, job.source, job.settings)
    put(job, {job.out: packed.stream, job.map: packed.map.encode()})
    return Made(len(packed.stream), packed.notes)


def unpack(drc, job):
    data, _, notes = unpacking.unpack(drc, job.source, unpacking.ending_of(job.out), job.is_text)
    put(job, {job.out: data})
    return Made(len(data), notes)


def recode(drc, job):
    """Where the new stream is longer, the old one is kept. The map that is kept is one to the mesh, where the map of the old stream stands
    beside it, else one to the old stream."""
    old = files.read(job.source)
    ran = drc.done(["recode", *job.options, *program.PROFILE], old)
    is_kept = len(ran.out) > len(old) and not job.any_size
    note, before = ran.note.encode(), map_before(job)
    if job.map and is_kept:
        note = maps.identity(note, job.source)
    if job.map and before.exists():
        note = maps.joined(files.read(before), note, before)
    put(job, {job.out: old if is_kept else ran.out, job.map: note}, [before])
    if is_kept:
        return Made(len(old), [f"{KEPT_AS_IT_WAS}: the new stream would have {len(ran.out):,} bytes, the old one has {len(old):,}"], KEPT_AS_IT_WAS)
    return Made(len(ran.out))


def gltf(drc, job):
    """Packs the primitives of a glTF file, or without settings unpacks them."""
    notes = []
    made = gltf_files.changed(drc, job.source, job.out, job.settings, lambda wanted, inputs: put(job, wanted, inputs), notes.append)
    is_all = made.coded == made.primitives
    return Made(made.after, notes if is_all else [f"{made.coded} of {made.primitives} primitives {'coded' if job.settings else 'decoded'}", *notes])


def verify(drc, job):
    """Whether a stream is the mesh, by the map that was kept: the mesh is quantised anew, and `drc verify` compares."""
    if not os.path.exists(job.out):
        packing.pack(drc, job.source, job.settings)  # a mesh that is refused has no stream, and is refused here as well
        raise Trouble(f"{job.out} isn't there: {job.source} isn't packed", READING)
    _, text, _, _ = packing.text_of(job.source, job.settings)
    stream = files.read(job.out)
    given = b"".join([files.read(job.map), b"ply %d\n" % len(text), text, stream])
    ran = drc.done(["verify", *job.options, *program.PROFILE], given, (0, NOT_SAME_STATUS))
    if ran.status == NOT_SAME_STATUS:
        words = ran.note.split()
        wrong = Refused(*(words[2:4] if len(words) >= 4 else ("", "")), f"{job.source}: {ran.note.strip()}: {job.out} isn't this mesh")
        wrong.status = NOT_SAME_STATUS
        raise wrong
    return Made(len(stream))


DOINGS = {"pack": pack, "unpack": unpack, "recode": recode, "gltf": gltf, "verify": verify}
