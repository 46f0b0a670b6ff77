#!/usr/bin/python3
"""Shows what convert/drc-many does: the same bytes as one by one, bad files among good ones, runs that are broken off, workers that end.

usage: tests/convert/test_many.py PROGRAM

PROGRAM is the built `drc`. One test has a scheduler of Dask and two workers in processes of their own, one of which is ended midway. Which
files may be written over is tried as well.
`recode` and `verify` are tried where the program has these commands.
The last line printed is 'N passed, M failed'; the exit status is 0 where M is 0.
"""
import argparse
import csv
import json
import os
import pathlib
import pty
import random
import signal
import stat
import subprocess
import sys
import tempfile
import time

CONVERT = pathlib.Path(__file__).resolve().parents[2] / "convert"
MANY = str(CONVERT / "drc-many")
PACK = str(CONVERT / "drc-pack")
UNPACK = str(CONVERT / "drc-unpack")
GLTF = str(CONVERT / "drc-gltf")
OLD = b"what was there\n"
GOOD = 18


def missing(name):
    try:
        __import__(name)
    except ImportError:
        return True
    return False


def mesh_text(seed):
    """A torn and noisy surface as OBJ."""
    draw = random.Random(seed)
    side = 14 + seed % 9
    lines = [f"v {i + draw.gauss(0, 0.01):.6f} {j + draw.gauss(0, 0.01):.6f} {draw.gauss(0, 1):.6f}" for j in range(side + 1) for i in range(side + 1)]
    at = lambda i, j: j * (side + 1) + i + 1
    for j in range(side):
        for i in range(side):
            if draw.random() < 0.95:
                lines += [f"f {at(i, j)} {at(i + 1, j)} {at(i + 1, j + 1)}", f"f {at(i, j)} {at(i + 1, j + 1)} {at(i, j + 1)}"]
    return "\n".join(lines) + "\n"


class Tests:
    def __init__(self, program, folder):
        self.program, self.folder, self.passed, self.failed = program, folder, 0, 0
        self.environment = {**os.environ, "DRC": program}

    def tell(self, holds, title):
        self.passed += bool(holds)
        self.failed += not holds
        if not holds:
            print(f"FAILED: {title}")

    def run(self, *words):
        return subprocess.run([sys.executable, *map(str, words)], stdout=subprocess.PIPE, stderr=subprocess.PIPE, env=self.environment, check=False, cwd="/")

    def start(self, *words, environment=None, **more):
        environment = environment or self.environment
        return subprocess.Popen([sys.executable, *map(str, words)], env=environment, cwd="/", stdout=subprocess.PIPE, stderr=subprocess.PIPE, **more)

    def slowed(self, seconds):
        """The environment with a program that takes so long before it begins, so that a run of many files can be ended midway."""
        slow = self.folder / f"slow{seconds}"
        slow.write_text(f'#!/bin/sh\nsleep {seconds}\nexec "{os.path.abspath(self.program)}" "$@"\n')
        slow.chmod(0o755)
        return {**self.environment, "DRC": str(slow)}

    def has(self, *command):
        ran = subprocess.run([self.program, *command], input=b"", stdout=subprocess.PIPE, stderr=subprocess.PIPE, check=False)
        return ran.returncode != 1


def inputs(folder):
    """Good meshes, in two folders, two of which have the same name but for the ending, and bad ones."""
    folder.mkdir()
    (folder / "more").mkdir()
    for k in range(GOOD):
        (folder / ("more" if k % 3 == 0 else ".") / f"mesh{k:02}.obj").write_text(mesh_text(k) + "f 1 2 17 16\n" * (k == 7))  # one has a quad
    (folder / "mesh01.ply").write_bytes(b"ply\nformat ascii 1.0\nelement vertex 4\nproperty float x\nproperty float y\nproperty float z\nend_header\n0 0 1\n1 0 0\n0 1 0\n2 2 2\n")
    bad = {"nan.obj": "v 0 0 0\nv nan 0 0\nv 0 1 0\nf 1 2 3\n", "range.obj": "v 0 0 0\nv 1 0 0\nv 0 1 0\nf 1 2 4\n", "same.obj": "v 0 0 0\nv 0 0 0\nv 0 1 0\nf 1 2 3\n",
           "cut.ply": "ply\nformat ascii 1.0\nelement vertex 4\nproperty float x\nproperty float y\nproperty float z\nend_header\n0 0 1\n1 0 0\n", "notes.txt": "no mesh\n"}
    for name, text in bad.items():
        (folder / name).write_text(text)
    return len(bad) - 1


def streams(folder, pattern="*.drc"):
    return {str(it.relative_to(folder)): it.read_bytes() for it in folder.rglob(pattern)}


def rows_of(folder, do):
    with open(folder / f"drc-many-{do}.csv", newline="") as file:
        return list(csv.DictReader(file))


def no_parts(tests, folder, title):
    tests.tell(not list(folder.rglob(".*.part")), f"{title}: nothing half written is left")


def one_by_one(tests, meshes, bad):
    """Each stream is the one that drc-pack writes; the bad ones are named, and stop nothing."""
    out = tests.folder / "one"
    ran = tests.run(MANY, "pack", meshes, "-o", out, "--one-by-one", "--maps")
    tests.tell(ran.returncode == 2 and not ran.stderr, f"one by one: {ran.stderr.decode()}")
    tests.tell(b"refused Degenerate: 1, same.obj first" in ran.stdout and b"refused input: 3, cut.ply first" in ran.stdout, f"the table: {ran.stdout.decode()}")
    rows = rows_of(out, "pack")
    tests.tell([row["file"] for row in rows] == sorted(row["file"] for row in rows) and len(rows) == GOOD + 2 + bad, "the report has each file once, in order")
    over = [(row["file"], row["kind"], row["before"]) for row in rows if row["state"] == "passed over"]
    tests.tell(over == [("notes.txt", ".txt", "8")] and b"passed over: 1, notes.txt first (.txt 1)" in ran.stdout, f"what is passed over: {over}")
    noted = [row["file"] for row in rows if row["state"] == "done" and "split into" in row["line"]]
    tests.tell(noted == ["mesh07.obj"] and b"with notes, which the report has: 1, mesh07.obj first" in ran.stdout, f"notes are in the report: {noted}")
    tests.tell({row["file"] for row in rows if row["state"] == "refused"} == {"nan.obj", "range.obj", "same.obj", "cut.ply"}, "the refused files")
    tests.tell(all("line 2" in row["line"] for row in rows if row["file"] == "nan.obj"), "the report says what and where")
    made = streams(out)
    tests.tell(len(made) == GOOD + 1 and "mesh01.obj.drc" in made and "mesh01.ply.drc" in made and "more/mesh00.drc" in made, "the names of the streams")
    for row in rows:
        if row["state"] == "done":
            alone = tests.folder / "alone.drc"
            tests.run(PACK, meshes / row["file"], "-o", alone, "--map", tests.folder / "alone.map", "--force")
            same = alone.read_bytes() == pathlib.Path(row["out"]).read_bytes() and (tests.folder / "alone.map").read_bytes() == pathlib.Path(row["out"]).with_suffix(".map").read_bytes()
            tests.tell(same and int(row["after"]) == alone.stat().st_size, f"{row['file']}: the bytes of drc-pack")
    no_parts(tests, out, "one by one")
    return out


def on_this_machine(tests, meshes, alone):
    out = tests.folder / "here"
    ran = tests.run(MANY, "pack", meshes, "-o", out, "--workers", 2, "--maps")
    tests.tell(ran.returncode == 2 and not ran.stderr, f"two processes: {ran.stderr.decode()[:300]}")
    tests.tell(streams(out) == streams(alone) and streams(out, "*.map") == streams(alone, "*.map"), "two processes: the same bytes as one by one")
    kept = lambda folder: [(row["file"], row["state"], row["kind"], row["number"], row["before"], row["after"], row["line"]) for row in rows_of(folder, "pack")]
    tests.tell(kept(out) == kept(alone), "two processes: the same report")
    no_parts(tests, out, "two processes")


def wait_for_rows(path, count, running, seconds=120):
    """Waits until a report has so many rows; whether it has."""
    for _ in range(seconds * 50):
        if path.exists() and path.read_bytes().count(b"\n") > count:
            return True
        if running.poll() is not None:
            return False
        time.sleep(0.02)
    return False


def broken_off(tests, meshes, alone, more, title, sign):
    """A run that is ended goes on where it stopped: what was done isn't done again."""
    out = tests.folder / title.replace(" ", "-")
    running = tests.start(MANY, "pack", meshes, "-o", out, *more, "--maps", environment=tests.slowed(2), start_new_session=True)
    there = wait_for_rows(out / "drc-many-pack.csv", 4, running)
    os.killpg(running.pid, sign)  # as a terminal sends it: to all processes of the program
    said = running.communicate()[1].decode()
    tests.tell(there and running.returncode == -sign, f"{title}: it was ended midway")
    if sign == signal.SIGINT:
        right = said.startswith("drc-many: broken off, ") and said.endswith(f" of {GOOD + 5} files are done; the same words go on from there\n") and said.count("\n") == 1
        tests.tell(right, f"{title}: Ctrl-C is said in one line: {said[-400:]}")
        no_parts(tests, out, f"{title}, at once")
    with open(out / "drc-many-pack.csv", "ab") as file:
        file.write(b"mesh17.obj,done,,,12")  # a row that was cut
    before = [row for row in rows_of(out, "pack") if row["state"] == "done" and row["words"]]
    times = {row["out"]: os.stat(row["out"]).st_mtime_ns for row in before}
    ran = tests.run(MANY, "pack", meshes, "-o", out, *more, "--maps")
    rows = rows_of(out, "pack")
    again = [row for row in rows if row["state"] == "done before"]
    tests.tell(ran.returncode == 2 and before and len(again) == len(before) < GOOD, f"{title}: {len(before)} done before, {len(again)} in the table: {ran.stderr.decode()[:300]}")
    tests.tell(all(os.stat(path).st_mtime_ns == at for path, at in times.items()), f"{title}: what was done isn't done again")
    tests.tell(streams(out) == streams(alone) and len(rows) == len(rows_of(alone, "pack")), f"{title}: the same bytes as one by one")
    no_parts(tests, out, title)
    # a changed input, a missing output and other words are done anew
    changed, lost = meshes / "mesh04.obj", out / "mesh05.drc"
    text = changed.read_text()
    changed.write_text(text + "# changed\n")
    lost.unlink()
    tests.run(MANY, "pack", meshes, "-o", out, "--one-by-one", "--maps")
    done = sorted(row["file"] for row in rows_of(out, "pack") if row["state"] == "done")
    tests.tell(done == ["mesh04.obj", "mesh05.obj"] and lost.exists(), f"{title}: what changed is done anew, and nothing else: {done}")
    changed.write_text(text)
    tests.run(MANY, "pack", meshes, "-o", out, "--one-by-one", "--maps", "--qp", 9)
    tests.tell(sum(row["state"] == "done" for row in rows_of(out, "pack")) == GOOD + 1, f"{title}: other words do all files anew")


def on_a_cluster(tests, meshes, alone):
    """A scheduler and two workers, each a process of its own; one worker is killed midway."""
    out, file = tests.folder / "cluster", tests.folder / "scheduler.json"
    scheduler = tests.start("-m", "distributed.cli.dask_scheduler", "--host", "127.0.0.1", "--port", "0", "--no-dashboard", "--scheduler-file", file)
    started = [scheduler]
    try:
        for _ in range(1500):
            if file.exists() and file.stat().st_size:
                break
            time.sleep(0.02)
        for k in range(2):
            place = tests.folder / f"worker{k}"
            place.mkdir()
            started.append(tests.start("-m", "distributed.cli.dask_worker", "--scheduler-file", file, "--nthreads", "1", "--no-nanny", "--no-dashboard", "--local-directory", place))
        address = json.loads(file.read_text())["address"]
        running = tests.start(MANY, "pack", meshes, "-o", out, "--scheduler", address, "--maps")
        there = wait_for_rows(out / "drc-many-pack.csv", 3, running)
        started[1].kill()
        started[1].wait()
        said, noted = running.communicate(timeout=300)
        tests.tell(there and running.returncode == 2, f"a cluster, one worker of which is killed midway: {running.returncode} {noted.decode()[-300:]}")
        rows = rows_of(out, "pack")
        tests.tell(streams(out) == streams(alone) and streams(out, "*.map") == streams(alone, "*.map"), "a cluster: the same bytes as one by one")
        kept = lambda rows: [(row["file"], row["state"], row["kind"], row["number"], row["after"], row["line"]) for row in rows]
        tests.tell(kept(rows) == kept(rows_of(alone, "pack")), "a cluster: the same report, with the sentences of the kinds")
        no_parts(tests, out, "a cluster")
    finally:
        for one in started[::-1]:
            if one.poll() is None:
                one.terminate()
                try:
                    one.wait(20)
                except subprocess.TimeoutExpired:
                    one.kill()
            one.communicate()


def unpacked(tests, alone):
    out = tests.folder / "meshes"
    broken = alone / "broken.drc"
    broken.write_bytes(b"DRACO\x02\x02\x01\x01")
    ran = tests.run(MANY, "unpack", alone, "-o", out, "--to", "obj", "--one-by-one")
    tests.tell(ran.returncode == 2 and b"refused Short: 1, broken.drc first" in ran.stdout, f"unpack: {ran.stdout.decode()} {ran.stderr.decode()}")
    back = tests.folder / "alone.obj"
    for name in ("mesh02.drc", "more/mesh00.drc", "mesh01.ply.drc"):
        tests.run(UNPACK, alone / name, "-o", back, "--force")
        tests.tell((out / name).with_suffix(".obj").read_bytes() == back.read_bytes(), f"unpack {name}: the bytes of drc-unpack")
    broken.unlink()


def recoded_to(tests, alone, title, given, words):
    """The bytes of `drc recode` and its map to the mesh; where they would be more, and weren't asked for, those of the old stream."""
    out = tests.folder / title
    ran = tests.run(MANY, "recode", alone, "-o", out, "--one-by-one", "--maps", *given)
    rows, kept = rows_of(out, "recode"), []
    clouds = {"mesh01.ply.drc"}  # which Edgebreaker refuses
    tests.tell(ran.returncode == 2 and {row["file"] for row in rows if row["state"] != "done"} == clouds, f"recode, {title}: {ran.stdout.decode()} {ran.stderr.decode()}")
    for row in rows:
        if row["state"] == "done":
            old, note = (alone / row["file"]).read_bytes(), (alone / row["file"]).with_suffix(".map").read_bytes()
            alike = subprocess.run([tests.program, "recode", *words], input=old, stdout=subprocess.PIPE, stderr=subprocess.PIPE, check=False)
            is_kept = len(alike.stdout) > len(old) and "--any-size" not in given
            wanted = (old, note) if is_kept else (alike.stdout, maps_joined(note, alike.stderr))
            same = ((out / row["file"]).read_bytes(), (out / row["file"]).with_suffix(".map").read_bytes()) == wanted
            tests.tell(same and alike.returncode == 0 and int(row["after"]) == len(wanted[0]), f"recode {row['file']}, {title}: the stream and its map to the mesh")
            tests.tell((row["kind"] == "kept as it was") == is_kept, f"recode {row['file']}, {title}: the report says whether the old one is kept")
            kept += [row["file"]] * is_kept
    if "--any-size" not in given:
        tests.tell(kept and len(kept) < len(rows) - 1, f"recode: some become longer: {len(kept)} of {len(rows)}")
        tests.tell(f"kept as it was: {len(kept)}, {kept[0]} first".encode() in ran.stdout, f"recode: the table says which are kept: {ran.stdout.decode()}")
    return out


def recoded(tests, meshes, alone):
    if not tests.has("recode"):
        print("recode: skipped, the program has no such command")
        return
    words = ["--method", "valence", "--predict", "multi"]
    recoded_to(tests, alone, "any size", ["--any-size", *words], words)
    out = recoded_to(tests, alone, "smaller", words, words)
    if tests.has("verify"):
        ran = tests.run(MANY, "verify", meshes, "-o", out, "--one-by-one")
        done = [row["file"] for row in rows_of(out, "verify") if row["state"] == "done"]
        tests.tell(len(done) == GOOD and ran.returncode == 2, f"verify of recoded streams: {ran.stdout.decode()} {ran.stderr.decode()}")


def maps_joined(first, second):
    """Two maps as one, row by row."""
    lines = lambda text: [tuple(map(int, line.split())) for line in text.decode().splitlines()[1:]]
    before, after = lines(first), lines(second)
    rows = [(before[face][0], (before[face][1] + turn) % 3) for face, turn in after]
    return (second.decode().splitlines()[0] + "\n" + "".join(f"{face} {turn}\n" for face, turn in rows)).encode()


def verified(tests, meshes, alone):
    if not tests.has("verify"):
        print("verify: skipped, the program has no such command")
        return
    ran = tests.run(MANY, "verify", meshes, "-o", alone, "--one-by-one")
    rows = rows_of(alone, "verify")
    tests.tell(sum(row["state"] == "done" for row in rows) == GOOD + 1 and ran.returncode == 2, f"verify: {ran.stdout.decode()} {ran.stderr.decode()}")
    refused = {row["file"]: row["kind"] for row in rows if row["state"] == "refused"}
    tests.tell(refused == {"nan.obj": "input", "range.obj": "input", "cut.ply": "input", "same.obj": "Degenerate"}, f"verify: a refused mesh is refused: {refused}")
    ran = tests.run(MANY, "verify", meshes, "-o", alone, "--one-by-one")
    tests.tell(sum(row["state"] == "done before" for row in rows_of(alone, "verify")) == GOOD + 1, "verify goes on where it stopped")
    lost = (alone / "mesh05.drc").rename(tests.folder / "lost.drc")
    ran = tests.run(MANY, "verify", meshes, "-o", alone, "--one-by-one")
    wrong = [(row["file"], row["state"]) for row in rows_of(alone, "verify") if row["state"] in ("failed", "not same")]
    tests.tell(wrong == [("mesh05.obj", "failed")], f"verify: a mesh that isn't packed isn't verified: {wrong}")
    lost.rename(alone / "mesh05.drc")
    stream, other = alone / "mesh02.drc", (alone / "mesh02.drc").read_bytes()
    stream.write_bytes(other[:-1] + bytes([other[-1] ^ 1]))  # the last byte is that of the quantisation's bits
    ran = tests.run(MANY, "verify", meshes, "-o", alone, "--one-by-one")
    wrong = [(row["file"], row["state"]) for row in rows_of(alone, "verify") if row["state"] not in ("done", "done before", "refused", "passed over")]
    tests.tell(wrong == [("mesh02.obj", "not same")], f"verify looks again at a stream that was changed, however long it is: {wrong}")
    stream.write_bytes(other)
    ran = tests.run(MANY, "verify", meshes, "-o", alone, "--one-by-one", "--surface", "--report", tests.folder / "surface.csv")
    tests.tell(ran.returncode == 2 and (b"refused NoPosition" in ran.stdout or b"refused Choice" in ran.stdout), "verify --surface: all but the cloud")
    changed = meshes / "mesh04.obj"
    text = changed.read_text()
    first, _, rest = text.partition("\nv ")
    changed.write_text(f"v 9 9 9\nv {rest}" if first else text)
    for name in ("nan.obj", "range.obj", "same.obj", "cut.ply"):
        (meshes / name).rename(tests.folder / name)
    ran = tests.run(MANY, "verify", meshes, "-o", alone, "--one-by-one")
    wrong = [row["file"] for row in rows_of(alone, "verify") if row["state"] == "not same"]
    tests.tell(ran.returncode == 6 and wrong == ["mesh04.obj"], f"verify: a changed mesh isn't the same: {wrong} {ran.returncode} {ran.stdout.decode()}")


def nothing_is_lost(tests):
    """Inputs stay; what is there is replaced only with --force, or where an earlier run wrote it; a report is one; devices and links stay."""
    folder, out = tests.folder / "few", tests.folder / "few out"
    folder.mkdir()
    out.mkdir()
    names = [f"m{k}.obj" for k in range(6)]
    for k, name in enumerate(names):
        (folder / name).write_text(mesh_text(k))
    before = {name: (folder / name).read_bytes() for name in names}
    os.link(folder / "m0.obj", out / "m0.drc")
    (out / "m1.drc").symlink_to(folder / "m0.obj")
    (out / "m2.drc").write_bytes(OLD)
    (out / "m3.drc").symlink_to("elsewhere")
    (out / "m4.drc").symlink_to("/dev/null")
    do = lambda *more: tests.run(MANY, "pack", folder, "-o", out, *more)
    states = lambda: [(row["state"], row["kind"]) for row in rows_of(out, "pack")]
    ran, done, input_of, there = do(), ("done", ""), ("failed", "status 1"), ("failed", "status 4")
    tests.tell(ran.returncode == 2 and states() == [input_of, input_of, there, done, done, done], f"many, what is there: {states()} {ran.stderr.decode()[:300]}")
    tests.tell((out / "m2.drc").read_bytes() == OLD and (out / "m3.drc").is_symlink() and (out / "elsewhere").exists(), "many: what is there stays, a link stays")
    tests.tell((out / "m4.drc").is_symlink() and stat.S_ISCHR(os.stat(out / "m4.drc").st_mode), "many: a device stays")
    ran = do("--force")
    tests.tell(states()[:3] == [input_of, input_of, done] and (out / "m2.drc").read_bytes() != OLD, f"many --force: {states()}")
    tests.tell({name: (folder / name).read_bytes() for name in names} == before, "many: the inputs are as they were")
    first = (out / "m5.drc").read_bytes()
    do("--qp", 9)
    tests.tell(states()[2:] == [done] * 4 and (out / "m5.drc").read_bytes() != first, f"many: what an earlier run wrote is replaced: {states()}")
    (out / "m5.drc").write_bytes(OLD)
    do("--qp", 10)
    tests.tell(states()[5] == there and (out / "m5.drc").read_bytes() == OLD, f"many: what was changed since then stays: {states()}")
    do("--qp", 11)
    tests.tell(states()[5] == there and states()[2] == done and (out / "m5.drc").read_bytes() == OLD, "many: and stays")
    (folder / "m2.obj").write_bytes(b"broken\n")
    do("--qp", 11)
    tests.tell(states()[2] == ("refused", "input") and (out / "m2.drc").exists(), "many: the output of a file that is broken now stays")
    (folder / "m2.obj").write_bytes(before["m2.obj"])
    do("--qp", 12)
    tests.tell(states()[2] == done, f"many: and is replaced when it is well again: {states()}")
    (out / "drc-many-pack.csv").unlink()
    do("--qp", 12)
    tests.tell(states()[2:] == [done, done, done, there], f"many: outputs with the bytes that are due stay, whoever wrote them: {states()}")
    notes = tests.folder / "notes.csv"
    notes.write_bytes(OLD)
    ran = do("--report", notes)
    tests.tell(ran.returncode == 4 and notes.read_bytes() == OLD and ran.stderr.count(b"\n") == 1, f"a report replaces no other file: {ran.stderr.decode()[:200]}")
    ran = do("--report", folder / "m0.obj", "--force")
    tests.tell(ran.returncode == 1 and (folder / "m0.obj").read_bytes() == before["m0.obj"], "a report is no input")
    ran = do("--report", "/dev/stdout", "--again", "--qp", 12)
    tests.tell(ran.stdout.startswith(b"file,state,kind") and ran.stdout.count(b"\n") == 7 and b"bytes before" in ran.stderr, f"a report on standard output: {ran.stdout[:300]}")
    link = tests.folder / "link"
    link.symlink_to(out)
    for command in ("recode", "unpack"):
        ran = tests.run(MANY, command, out, "-o", link)
        tests.tell(ran.returncode == 1 and b"the folder that it reads" in ran.stderr, f"{command} into its own folder by a link")
    apart = tests.folder / "apart"
    apart.mkdir()
    for name in ("a.obj", "a.stl", "a.obj.ply"):  # whose streams would have the same names
        (apart / name).write_text(mesh_text(1))
    tests.run(MANY, "pack", apart, "-o", apart)
    tests.tell(sorted(row["out"].rpartition("/")[2] or row["file"] for row in rows_of(apart, "pack")) == ["a.obj.drc", "a.obj.ply", "a.stl"], "each file has an output of its own")


def scenes(tests):
    """A folder of glTF files: the bytes of drc-gltf, and back."""
    import small_scene as made

    folder, out, back = tests.folder / "scenes", tests.folder / "packed scenes", tests.folder / "scenes again"
    (folder / "more").mkdir(parents=True)
    document, binary = made.scene()
    (folder / "one.glb").write_bytes(made.glb(document, binary))
    (folder / "more" / "two.gltf").write_text(json.dumps({**document, "buffers": [{"byteLength": len(binary), "uri": "two.bin"}]}))
    (folder / "more" / "two.bin").write_bytes(binary)
    (folder / "broken.glb").write_bytes(b"glTF")
    (folder / "notes.md").write_bytes(OLD)
    ran = tests.run(MANY, "gltf", folder, "-o", out, "--qp", 11)
    rows = rows_of(out, "gltf")
    states = [(row["file"], row["state"]) for row in rows]
    tests.tell(ran.returncode == 2 and states == [("broken.glb", "refused"), ("more/two.gltf", "done"), ("notes.md", "passed over"), ("one.glb", "done")],
               f"glTF: {states} {ran.stderr.decode()[:300]}")
    for source, target in (("one.glb", "one.glb"), ("more/two.gltf", "more/two.glb")):
        alone = tests.folder / "scene.glb"
        tests.run(GLTF, "pack", folder / source, alone, "--qp", 11, "--force")
        tests.tell((out / target).read_bytes() == alone.read_bytes(), f"glTF: {source}: the bytes of drc-gltf")
    ran = tests.run(MANY, "gltf", out, "-o", back, "--unpack")
    tests.tell(ran.returncode == 0 and b"KHR_draco" not in (back / "one.glb").read_bytes() and b"KHR_draco" in (out / "one.glb").read_bytes(), f"glTF: back: {ran.stderr.decode()[:300]}")
    tests.tell(tests.run(MANY, "gltf", out, "-o", out).returncode == 1, "glTF: not into the folder that is read")


def clouds_of_trees(tests):
    """kd-tree files of a folder are unpacked as streams are."""
    if not tests.has("kd", "dec"):
        print("kd-tree files: skipped, the program has no such command")
        return
    folder, out = tests.folder / "trees", tests.folder / "points"
    folder.mkdir()
    text = b"ply\nformat ascii 1.0\nelement vertex 3\nproperty int x\nproperty int y\nproperty int z\nend_header\n5 5 5\n5 5 5\n5 5 6\n"
    (folder / "c.kd").write_bytes(subprocess.run([tests.program, "kd", "enc"], input=text, stdout=subprocess.PIPE, stderr=subprocess.PIPE, check=False).stdout)
    ran = tests.run(MANY, "unpack", folder, "-o", out, "--ascii")
    tests.tell(ran.returncode == 0 and (out / "c.ply").read_bytes().endswith(b"\n5 5 5\n5 5 5\n5 5 6\n"), f"kd-tree files: {ran.stderr.decode()[:300]}")


def small_work(tests, meshes):
    """Small work is done in this process, without Dask; greater work by it where it is there."""
    place = tests.folder / "no dask"
    place.mkdir()
    (place / "distributed.py").write_text("raise RuntimeError('Dask was begun')\n")
    environment = {**tests.environment, "PYTHONPATH": str(place)}
    run = lambda *more: subprocess.run([sys.executable, MANY, "pack", str(meshes), "-o", str(tests.folder / "small"), *more], stdout=subprocess.PIPE, stderr=subprocess.PIPE, env=environment, check=False)
    ran = run()
    tests.tell(ran.returncode == 2 and b"Dask" not in ran.stderr, f"small work needs no Dask: {ran.stderr.decode()[-300:]}")
    tests.tell(b"Dask was begun" in run("--workers", "2", "--again").stderr, "--workers begins Dask")
    sys.path.insert(0, str(CONVERT))
    from drcfiles import workers
    from drcfiles.many import Job

    great, small = tests.folder / "great.obj", tests.folder / "little.obj"
    with open(great, "wb") as file:
        file.truncate(200 << 20)
    small.write_text(mesh_text(1))
    given = lambda **more: argparse.Namespace(**{"one_by_one": False, "scheduler": None, "workers": None, **more})
    jobs = lambda path, count: [Job("pack", path.name, str(path), "x", "", "")] * count
    workers.is_dask_there, workers.os.cpu_count = lambda: True, lambda: 4
    found = [workers.is_by_dask(given(), jobs(great, 3)), workers.is_by_dask(given(), jobs(small, 5000)), workers.is_by_dask(given(), jobs(small, 200)),
             workers.is_by_dask(given(one_by_one=True), jobs(great, 3)), workers.is_by_dask(given(workers=2), jobs(small, 3))]
    tests.tell(found == [True, True, False, False, True], f"which work is Dask's: {found}")


def bar(tests, meshes):
    """On a terminal a bar says how many files are done, and is taken away. The program is slowed down, since short work shows none."""
    first, second = pty.openpty()
    running = subprocess.Popen([sys.executable, MANY, "pack", str(meshes), "-o", str(tests.folder / "bar"), "--one-by-one"],
                               env=tests.slowed(0.2), stdout=subprocess.DEVNULL, stderr=second)
    os.close(second)
    said = b""
    while True:
        try:
            part = os.read(first, 4096)
        except OSError:
            break
        if not part:
            break
        said += part
    os.close(first)
    tests.tell(running.wait() == 2 and b"drc-many pack [#" in said and f"of {GOOD + 5}".encode() in said and said.endswith(b"\r\x1b[K"), f"a bar: {said[-200:]}")


def words(tests, meshes):
    ran = tests.run(MANY, "pack", tests.folder / "nothing", "-o", tests.folder / "x")
    tests.tell(ran.returncode == 3 and ran.stderr.count(b"\n") == 1, "no such folder")
    (tests.folder / "empty").mkdir()
    ran = tests.run(MANY, "unpack", tests.folder / "empty", "-o", tests.folder / "x")
    tests.tell(ran.returncode == 2 and b"has no .drc files" in ran.stderr, "an empty folder")
    ran = tests.run(MANY, "unpack", meshes, "-o", meshes)
    tests.tell(ran.returncode == 1 and ran.stderr.count(b"\n") == 1, "a folder isn't unpacked into itself")
    tests.tell(tests.run(MANY, "squeeze", meshes, "-o", tests.folder / "x").returncode == 1, "bad words")


def main():
    if len(sys.argv) != 2:
        sys.exit(__doc__)
    if missing("numpy"):
        print("skipped, numpy is missing")
        print("0 passed, 0 failed")
        return
    with tempfile.TemporaryDirectory() as folder:
        tests = Tests(os.path.abspath(sys.argv[1]), pathlib.Path(folder))
        meshes = tests.folder / "meshes-given"
        bad = inputs(meshes)
        words(tests, meshes)
        bar(tests, meshes)
        alone = one_by_one(tests, meshes, bad)
        broken_off(tests, meshes, alone, ["--one-by-one"], "broken off", signal.SIGKILL)
        broken_off(tests, meshes, alone, ["--one-by-one"], "broken off in one process", signal.SIGINT)
        if missing("distributed"):
            print("Dask: skipped, distributed is missing")
        else:
            on_this_machine(tests, meshes, alone)
            broken_off(tests, meshes, alone, ["--workers", "2"], "broken off by hand", signal.SIGINT)
            on_a_cluster(tests, meshes, alone)
            ran = tests.run(MANY, "pack", meshes, "-o", tests.folder / "none", "--scheduler", "tcp://127.0.0.1:9")
            tests.tell(ran.returncode == 3 and b"doesn't answer" in ran.stderr and ran.stderr.count(b"\n") == 1, f"no scheduler: {ran.stderr.decode()[-300:]}")
        nothing_is_lost(tests)
        scenes(tests)
        clouds_of_trees(tests)
        small_work(tests, meshes)
        unpacked(tests, alone)
        recoded(tests, meshes, alone)
        verified(tests, meshes, alone)
        print(f"{tests.passed} passed, {tests.failed} failed")
        sys.exit(tests.failed > 0)


main()
