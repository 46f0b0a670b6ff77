#!/usr/bin/python3
"""Shows that no program of convert/ loses a file: inputs, files that are there, devices, pipes and links, and what is left after a failure.

usage: tests/convert/test_files.py PROGRAM

PROGRAM is the built `drc`. numpy (Debian's python3-numpy) is needed; `drc-pack` of glTF takes part where `assimp` is there, and devices
where this process may make them. The last line printed is 'N passed, M failed'; the exit status is 0 where M is 0.
"""
import json
import os
import pathlib
import shutil
import signal
import stat
import subprocess
import sys
import tempfile
import threading
import time

HERE = pathlib.Path(__file__).resolve().parent
CONVERT = HERE.parents[1] / "convert"
sys.path[:0] = [str(HERE), str(HERE.parent / "shared"), str(CONVERT)]
try:
    import numpy as np
except ImportError:
    print("skipped, numpy is missing")
    print("0 passed, 0 failed")
    sys.exit(0)

from drcfiles import files  # noqa: E402
from drcfiles.trouble import Trouble  # noqa: E402
from shapes import read_text  # noqa: E402
from small_scene import FACES, POINTS, glb, scene  # noqa: E402

OLD = b"what was there\n"


def obj():
    lines = ["v %d %d %d" % row for row in POINTS] + ["f " + " ".join(str(k + 1) for k in face) for face in FACES]
    return ("\n".join(lines) + "\n").encode()


def cloud():
    head = f"ply\nformat ascii 1.0\nelement vertex {len(POINTS)}\nproperty int x\nproperty int y\nproperty int z\nend_header\n"
    return (head + "".join("%d %d %d\n" % row for row in POINTS)).encode()


class Converter:
    """A program that makes one file of another: its name, the words before and between the two, and the ending that an output has to have."""

    def __init__(self, name, source, ending, before=(), between=("-o",), after=()):
        self.name, self.source, self.ending, self.before, self.between, self.after = name, source, ending, before, between, after

    def words(self, source, out, *more):
        return [*self.before, source, *self.between, out, *self.after, *more]

    def __str__(self):
        return " ".join([self.name, *self.before])


class Tests:
    def __init__(self, program, folder):
        self.program, self.folder, self.passed, self.failed, self.made = program, folder, 0, 0, 0
        self.environment = {**os.environ, "DRC": program}

    def tell(self, holds, title):
        self.passed += bool(holds)
        self.failed += not holds
        if not holds:
            print(f"FAILED: {title}")

    def run(self, name, *words, **more):
        more = {"cwd": self.folder, "stdout": subprocess.PIPE, "stderr": subprocess.PIPE, "env": self.environment, **more}
        return subprocess.run([sys.executable, str(CONVERT / name), *map(str, words)], check=False, **more)

    def place(self):
        """A folder that nothing is in."""
        self.made += 1
        folder = self.folder / f"place{self.made}"
        folder.mkdir()
        return folder

    def refused(self, title, ran, status, *parts):
        """One line with these parts, this status, and nothing on standard output."""
        said = ran.stderr.decode("utf-8", "replace")
        right = ran.returncode == status and said.count("\n") == 1 and all(part in said for part in parts) and not ran.stdout
        self.tell(right, f"{title}: wanted status {status} and one line with {parts}, got {ran.returncode}: {said[:300]}")

    def went(self, title, ran):
        self.tell(ran.returncode == 0, f"{title}: status {ran.returncode}: {ran.stderr.decode('utf-8', 'replace')[:300]}")

    def nothing_left(self, title, folder):
        left = [it.name for it in folder.iterdir() if it.name.startswith(".")]
        self.tell(not left, f"{title}: left are {left}")


def converters(tests):
    """The programs that make one file of another, each with an input of its own."""
    made = tests.place()
    mesh, stream, binary = made / "m.obj", made / "m.drc", made / "s.glb"
    mesh.write_bytes(obj())
    tests.went("the stream", tests.run("drc-pack", mesh, "-o", stream))
    document, data = scene()
    binary.write_bytes(glb(document, data))
    small = made / "small.glb"
    tests.went("the packed scene", tests.run("drc-gltf", "pack", binary, small))
    return [Converter("drc-pack", mesh, ".drc"), Converter("drc-unpack", stream, ".ply", after=("--to", "ply")), Converter("drc-view", stream, ".html"),
            Converter("drc-gltf", binary, ".glb", ("pack",), ()), Converter("drc-gltf", small, ".glb", ("unpack",), ())]


def whole(tests, it):
    """What a converter makes of its input: the bytes of a plain output."""
    out = tests.place() / f"out{it.ending}"
    tests.went(f"{it}", tests.run(it.name, *it.words(it.source, out)))
    return out.read_bytes()


def an_input_as_output(tests, it):
    """By its name, by other names and by links to it, an input is refused as an output and stays as it is, also with --force."""
    folder = tests.place()
    source = folder / it.source.name
    shutil.copy(it.source, source)
    data, number = source.read_bytes(), source.stat().st_ino
    (folder / "inner").mkdir()
    (folder / "folder").symlink_to(folder)
    linked = {name: folder / f"{name}{source.suffix}" for name in ("soft", "twice", "hard")}
    linked["soft"].symlink_to(source.name)
    linked["twice"].symlink_to(linked["soft"])
    os.link(source, linked["hard"])
    names = {"its name": source, "a name over another folder": folder / "inner" / ".." / source.name, "a linked folder": folder / "folder" / source.name, **linked}
    tests.refused(f"{it}: an input as output", tests.run(it.name, *it.words(source, source)), 1, "is an input")
    for title, out in names.items():
        tests.refused(f"{it}: an input as output by {title}", tests.run(it.name, *it.words(source, out, "--force")), 1, "is an input")
    for title, path in (("a link as input", linked["soft"]), ("another name as input", linked["hard"])):
        tests.refused(f"{it}: {title}", tests.run(it.name, *it.words(path, source, "--force")), 1, "is an input")
    with open(source, "rb") as file:
        tests.refused(f"{it}: standard input as output", tests.run(it.name, *it.words("-", source, "--force"), stdin=file), 1, "is an input")
    with open(source, "ab") as file:
        ran = tests.run(it.name, *it.words(source, "-"), stdout=file)
        tests.tell(ran.returncode == 1 and b"is an input" in ran.stderr, f"{it}: standard output into the input: {ran.returncode} {ran.stderr.decode()[:200]}")
    tests.tell(source.read_bytes() == data and source.stat().st_ino == number and linked["soft"].is_symlink(), f"{it}: the input is as it was")
    tests.nothing_left(f"{it}: an input as output", folder)


def what_is_there(tests, it, wanted):
    """A file that is there stays without --force, and is replaced with it, whole and with its mode; a failure leaves it."""
    folder = tests.place()
    out = folder / f"out{it.ending}"
    out.write_bytes(OLD)
    out.chmod(0o640)
    tests.refused(f"{it}: a file that is there", tests.run(it.name, *it.words(it.source, out)), 4, "is there already", "--force")
    tests.tell(out.read_bytes() == OLD, f"{it}: a file that is there stays")
    broken = folder / f"broken{it.source.suffix}"
    broken.write_bytes(b"broken\n")
    if it.name != "drc-view":  # which writes a page about it
        ran = tests.run(it.name, *it.words(broken, out, "--force"))
        tests.tell(ran.returncode == 2 and out.read_bytes() == OLD, f"{it}: a failure leaves what was there: {ran.returncode}")
    tests.went(f"{it} --force", tests.run(it.name, *it.words(it.source, out, "--force")))
    tests.tell(out.read_bytes() == wanted and stat.S_IMODE(out.stat().st_mode) == 0o640, f"{it}: --force replaces it")
    inner = folder / "folder"
    inner.mkdir()
    named = folder / f"named{it.ending}"
    named.mkdir()
    tests.refused(f"{it}: a folder as output", tests.run(it.name, *it.words(it.source, named, "--force")), 4, "it is a folder")
    tests.refused(f"{it}: no such folder", tests.run(it.name, *it.words(it.source, folder / "nowhere" / f"out{it.ending}")), 4, "can't be written")
    long = folder / ("x" * (255 - len(it.ending)) + it.ending)
    tests.went(f"{it}: the longest name", tests.run(it.name, *it.words(it.source, long)))
    tests.nothing_left(f"{it}: what is there", folder)


def links(tests, it, wanted):
    """A link stays a link, and what it leads to is written by the same rule."""
    folder = tests.place()
    there, new, loop = folder / "there", folder / "new", folder / f"loop{it.ending}"
    there.write_bytes(OLD)
    over, onto = folder / f"over{it.ending}", folder / f"onto{it.ending}"
    over.symlink_to("there")
    onto.symlink_to("new")
    loop.symlink_to(loop.name)
    tests.refused(f"{it}: a link to a file that is there", tests.run(it.name, *it.words(it.source, over)), 4, "is there already")
    tests.tell(there.read_bytes() == OLD, f"{it}: the file behind a link stays")
    tests.went(f"{it}: a link, --force", tests.run(it.name, *it.words(it.source, over, "--force")))
    tests.tell(over.is_symlink() and there.read_bytes() == wanted, f"{it}: the file behind a link is replaced, the link isn't")
    tests.went(f"{it}: a link to nothing", tests.run(it.name, *it.words(it.source, onto)))
    tests.tell(onto.is_symlink() and new.read_bytes() == wanted, f"{it}: the file that a link names is made")
    tests.refused(f"{it}: a link to itself", tests.run(it.name, *it.words(it.source, loop, "--force")), 4, "can't be written")
    tests.tell(loop.is_symlink(), f"{it}: a link to itself stays")
    tests.nothing_left(f"{it}: links", folder)


def devices(tests, it):
    """A device is written to and stays a device, also behind a link."""
    folder = tests.place()
    null = folder / f"null{it.ending}"
    try:
        os.mknod(null, 0o666 | stat.S_IFCHR, os.makedev(1, 3))
        open(null, "wb").close()
    except OSError as why:
        print(f"{it}: a device: skipped, this process can't make one ({why.strerror})")
        return
    link = folder / f"link{it.ending}"
    link.symlink_to(null.name)
    for title, out in (("a device", null), ("a link to a device", link)):
        tests.went(f"{it}: {title}", tests.run(it.name, *it.words(it.source, out)))
        found = os.lstat(null)
        tests.tell(stat.S_ISCHR(found.st_mode) and found.st_rdev == os.makedev(1, 3) and link.is_symlink(), f"{it}: {title} stays one")
    full = folder / f"full{it.ending}"
    full.symlink_to("/dev/full")
    tests.refused(f"{it}: a device that is full", tests.run(it.name, *it.words(it.source, full)), 4, "can't be written")
    tests.nothing_left(f"{it}: devices", folder)


def pipes(tests, it, wanted):
    """A pipe is written to; standard output and standard input are named by `-`, and what is said goes to standard error."""
    folder = tests.place()
    pipe, got = folder / f"pipe{it.ending}", []
    os.mkfifo(pipe)
    reading = threading.Thread(target=lambda: got.append(pipe.read_bytes()), daemon=True)
    reading.start()
    tests.went(f"{it}: a pipe", tests.run(it.name, *it.words(it.source, pipe)))
    reading.join(20)
    tests.tell(got == [wanted] and stat.S_ISFIFO(os.lstat(pipe).st_mode), f"{it}: a pipe gets all bytes, and stays one")
    for out in ("-", "/dev/stdout"):
        if out == "-" or it.ending in (".drc", ".ply", ".html"):
            ran = tests.run(it.name, *it.words(it.source, out))
            tests.tell(ran.returncode == 0 and ran.stdout == wanted, f"{it}: standard output by {out}: {ran.returncode} {ran.stderr.decode()[:200]}")
    out = folder / f"out{it.ending}"
    with open(out, "wb") as file:
        tests.went(f"{it}: standard output into a file", tests.run(it.name, *it.words(it.source, "-"), stdout=file))
    tests.tell(out.read_bytes() == wanted, f"{it}: standard output into a file")
    wide = tests.run(it.name, *it.words("-", "-"), input=it.source.read_bytes())
    right = wide.stdout == wanted if it.name != "drc-view" else b"standard input" in wide.stdout
    tests.tell(wide.returncode == 0 and right, f"{it}: standard input: {wide.returncode} {wide.stderr.decode()[:200]}")
    closed = subprocess.Popen([sys.executable, str(CONVERT / it.name), *map(str, it.words(it.source, "-"))], stdout=subprocess.PIPE, stderr=subprocess.PIPE, env=tests.environment)
    closed.stdout.close()
    said = closed.stderr.read().decode()
    tests.tell(closed.wait() in (0, 4) and "Traceback" not in said, f"{it}: standard output that nobody reads: {closed.returncode} {said[:200]}")


def interrupted(tests, it, sign):
    """An interrupt, or another signal that ends programs, ends it in one line, and leaves what was there."""
    folder = tests.place()
    out, slow = folder / f"out{it.ending}", folder / "slow"
    out.write_bytes(OLD)
    slow.write_text(f'#!/bin/sh\ntouch "{folder}/begun"\nexec sleep 60\n')
    slow.chmod(0o755)
    running = subprocess.Popen([sys.executable, str(CONVERT / it.name), *map(str, it.words(it.source, out, "--force"))], env={**tests.environment, "DRC": str(slow)},
                               stdout=subprocess.PIPE, stderr=subprocess.PIPE, start_new_session=True)
    for _ in range(3000):
        if (folder / "begun").exists() or running.poll() is not None:
            break
        time.sleep(0.02)
    os.killpg(running.pid, sign)
    said = running.communicate(timeout=60)[1].decode()
    tests.tell(running.returncode == -sign and said == f"{it.name}: broken off\n", f"{it}: an interrupt: {running.returncode} {said[:300]}")
    tests.tell(out.read_bytes() == OLD, f"{it}: an interrupt leaves what was there")
    tests.nothing_left(f"{it}: an interrupt", folder)


def parts_of_gltf(tests):
    """The buffer and the image beside a .gltf are inputs as well."""
    folder = tests.place()
    document, data = scene()
    document["buffers"][0]["uri"] = "the%20data.bin"
    document["images"] = [{"uri": "picture.png"}]
    source, binary, picture = folder / "s.gltf", folder / "the data.bin", folder / "picture.png"
    source.write_text(json.dumps(document))
    binary.write_bytes(data)
    picture.write_bytes(b"a picture\n")
    os.link(binary, folder / "hard.glb")
    (folder / "soft.glb").symlink_to("picture.png")
    held = lambda: [it.read_bytes() for it in (source, binary, picture)]
    before = held()
    for name in ("hard.glb", "soft.glb"):
        tests.refused(f"drc-gltf pack onto a part: {name}", tests.run("drc-gltf", "pack", source, folder / name, "--force"), 1, "is an input")
        tests.refused(f"drc-gltf unpack onto a part: {name}", tests.run("drc-gltf", "unpack", source, folder / name, "--force"), 1, "is an input")
    os.link(binary, folder / "other.bin")  # where the buffer of other.gltf goes
    tests.refused("a buffer onto a part", tests.run("drc-gltf", "pack", source, folder / "other.gltf", "--force"), 1, "is an input")
    tests.tell(not (folder / "other.gltf").exists(), "a buffer onto a part: nothing is written")
    (folder / "third.bin").write_bytes(OLD)
    tests.refused("a buffer onto a file that is there", tests.run("drc-gltf", "pack", source, folder / "third.gltf"), 4, "is there already")
    tests.tell(not (folder / "third.gltf").exists() and (folder / "third.bin").read_bytes() == OLD, "a buffer onto a file that is there: nothing is written")
    tests.went("a buffer onto a file that is there, --force", tests.run("drc-gltf", "pack", source, folder / "third.gltf", "--force"))
    for out in (binary, picture, source):
        tests.refused(f"drc-pack onto {out.name}", tests.run("drc-pack", source, "-o", out, "--force"), 1, "is an input")
    tests.tell(held() == before, "the parts of a .gltf are as they were")
    tests.nothing_left("parts", folder)
    if shutil.which("assimp"):
        document["buffers"][0]["uri"] = "third.bin"  # assimp takes no spaces
        (folder / "third.bin").write_bytes(data)
        source.write_text(json.dumps(document))
        tests.went("drc-pack of a .gltf", tests.run("drc-pack", source, "-o", folder / "s.drc"))


def several_outputs(tests):
    """Two outputs that are one are refused, and none is new where one of them fails."""
    folder = tests.place()
    mesh, out, rows = folder / "m.obj", folder / "m.drc", folder / "m.map"
    mesh.write_bytes(obj())
    (folder / "soft").symlink_to("m.drc")
    tests.refused("two outputs that are one", tests.run("drc-pack", mesh, "-o", out, "--map", out), 1, "two of the outputs are one")
    tests.refused("two outputs that are one by a link", tests.run("drc-pack", mesh, "-o", out, "--map", folder / "soft"), 1, "two of the outputs are one")
    tests.refused("two outputs that are standard output", tests.run("drc-pack", mesh, "-o", "-", "--map", "-"), 1, "two of the outputs are one")
    tests.went("two outputs that are one device", tests.run("drc-pack", mesh, "-o", "/dev/null", "--map", "/dev/null"))
    tests.refused("the text onto the mesh", tests.run("drc-pack", mesh, "-o", out, "--text", mesh, "--force"), 1, "is an input")
    rows.write_bytes(OLD)
    tests.refused("a map that is there", tests.run("drc-pack", mesh, "-o", out, "--map", rows), 4, "m.map is there already")
    tests.tell(not out.exists() and rows.read_bytes() == OLD, "a map that is there: nothing is written")
    out.write_bytes(OLD)
    ran = tests.run("drc-pack", mesh, "-o", out, "--map", folder / "nowhere" / "m.map", "--force")
    tests.tell(ran.returncode == 4 and out.read_bytes() == OLD, "a map that can't be written leaves the stream that was there")
    tests.tell(mesh.read_bytes() == obj(), "several outputs: the mesh is as it was")
    tests.nothing_left("several outputs", folder)


def renaming(tests):
    """The module itself: a rename that fails puts back what was there; a file that comes to be meanwhile stays."""
    folder = tests.place()
    first, second, third = folder / "a", folder / "b", folder / "c"
    first.write_bytes(OLD)
    second.write_bytes(OLD)
    real = files.os.replace

    def failing(source, target):
        if str(target) == str(second) and source.endswith(files.PART):
            raise OSError(5, "Input/output error")
        real(source, target)

    for has_links in (True, False):
        link = files.os.link
        if not has_links:
            files.os.link = lambda *_: (_ for _ in ()).throw(OSError(1, "no links"))
        files.os.replace = failing
        try:
            files.write_all({third: b"new", first: b"new", second: b"new"}, may_replace=True)
            tests.tell(False, "a rename that fails is said")
        except Trouble as why:
            tests.tell(why.status == 4 and "Input/output error" in why.line, f"a rename that fails is said: {why.line}")
        finally:
            files.os.replace, files.os.link = real, link
        tests.tell(first.read_bytes() == second.read_bytes() == OLD and not third.exists(), f"a rename that fails puts back what was there, links {has_links}")
        tests.nothing_left("a rename that fails", folder)
        part = files.Part(first)
        part.fill(b"new")
        if not has_links:
            files.os.link = lambda *_: (_ for _ in ()).throw(OSError(1, "no links"))
        try:
            part.put(False, False)
            tests.tell(False, "a file that came to be meanwhile is said")
        except Trouble as why:
            tests.tell("is there already" in why.line, "a file that came to be meanwhile is said")
        finally:
            files.os.link = link
        part.undo()
        tests.tell(first.read_bytes() == OLD, "a file that came to be meanwhile stays")
        tests.nothing_left("a file that came to be meanwhile", folder)
    files.write_all({first: b"new", second: b"new"}, may_replace=True)
    tests.tell(first.read_bytes() == second.read_bytes() == b"new", "several files are replaced")
    tests.nothing_left("several files", folder)


def formats_of_standard_input(tests):
    """What standard input has is told by its beginning, or named."""
    stl = b"x".ljust(80) + len(FACES).to_bytes(4, "little")
    for face in FACES:
        stl += bytes(12) + np.array([POINTS[k] for k in face], "<f4").tobytes() + b"\0\0"
    off = b"OFF\n%d %d 0\n" % (len(POINTS), len(FACES)) + b"".join(b"%d %d %d\n" % row for row in POINTS) + b"".join(b"3 %d %d %d\n" % face for face in FACES)
    for title, data, words in (("PLY", cloud(), []), ("OBJ", b"# a mesh\n" + obj(), []), ("STL", stl, []), ("OFF", off, []), ("named", obj(), ["--format", "obj"])):
        ran = tests.run("drc-pack", "-", "-o", "-", *words, input=data)
        tests.tell(ran.returncode == 0 and ran.stdout.startswith(b"DRACO"), f"standard input, {title}: {ran.returncode} {ran.stderr.decode()[:200]}")
    tests.refused("standard input of no format", tests.run("drc-pack", "-", "-o", "-", input=b"nothing of a mesh\n"), 1, "--format")
    tests.refused("standard input with a fault", tests.run("drc-pack", "-", "-o", "-", input=b"v 0 0 zero\n"), 2, "drc-pack: - line 1")
    folder = tests.place()
    mesh = folder / "m.obj"
    mesh.write_bytes(obj())
    tests.refused("--format of a file", tests.run("drc-pack", mesh, "-o", folder / "x.drc", "--format", "ply"), 1, "--format")
    first, second = os.pipe()
    os.write(second, obj())
    os.close(second)
    tests.went("a pipe as input", tests.run("drc-pack", f"/dev/fd/{first}", "-o", folder / "p.drc", pass_fds=[first]))
    os.close(first)


def kd_trees(tests):
    """kd-tree files are unpacked and shown as `drc kd dec` reads them."""
    folder = tests.place()
    tree = folder / "c.kd"
    made = subprocess.run([tests.program, "kd", "enc"], input=cloud(), stdout=subprocess.PIPE, stderr=subprocess.PIPE, check=False)
    if made.returncode == 1:
        print("kd-tree files: skipped, the program has no such command")
        return
    tree.write_bytes(made.stdout)
    _, rows, _ = read_text(subprocess.run([tests.program, "kd", "dec"], input=made.stdout, stdout=subprocess.PIPE, check=False).stdout)
    out = folder / "c.ply"
    tests.went("drc-unpack of a kd-tree file", tests.run("drc-unpack", tree, "-o", out, "--ascii"))
    found = [tuple(map(int, line.split())) for line in out.read_text().partition("end_header\n")[2].splitlines()]
    tests.tell(found == rows and sorted(rows) == sorted(POINTS), "drc-unpack of a kd-tree file: its points")
    page = folder / "c.html"
    ran = tests.run("drc-view", tree, "-o", page)
    tests.went("drc-view of a kd-tree file", ran)
    text = page.read_text()
    tests.tell(not ran.stderr and '"method":"kd"' in text and f'"points":{len(POINTS)}' in text, f"drc-view of a kd-tree file: {ran.stderr.decode()[:200]}")
    broken = folder / "broken.kd"
    broken.write_bytes(made.stdout[:12])
    tests.refused("drc-unpack of a kd-tree file that is cut", tests.run("drc-unpack", broken, "-o", folder / "x.ply"), 2, "refused Short")


def main():
    if len(sys.argv) != 2:
        sys.exit(__doc__)
    with tempfile.TemporaryDirectory() as folder:
        tests = Tests(os.path.abspath(sys.argv[1]), pathlib.Path(folder))
        for it in converters(tests):
            an_input_as_output(tests, it)
            wanted = whole(tests, it)
            what_is_there(tests, it, wanted)
            links(tests, it, wanted)
            devices(tests, it)
            pipes(tests, it, wanted)
            interrupted(tests, it, signal.SIGTERM if it.before == ("unpack",) else signal.SIGINT)
        parts_of_gltf(tests)
        several_outputs(tests)
        renaming(tests)
        formats_of_standard_input(tests)
        kd_trees(tests)
        print(f"{tests.passed} passed, {tests.failed} failed")
        sys.exit(tests.failed > 0)


main()
