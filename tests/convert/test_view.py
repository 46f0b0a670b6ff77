#!/usr/bin/python3
"""Shows in a real browser that the pages of convert/drc-view draw what the file has, and that hands move it.

usage: tests/convert/test_view.py PROGRAM

PROGRAM is the built `drc`. numpy (Debian's python3-numpy) and chromium are needed. The last line printed is 'N passed, M failed'; the exit
status is 0 where M is 0.
"""
import json
import pathlib
import shutil
import subprocess
import sys
import tempfile

HERE = pathlib.Path(__file__).resolve().parent
sys.path[:0] = [str(HERE), str(HERE.parent / "shared")]

import browser  # noqa: E402
from shapes import Shape, lattice, on_square, read_text, with_heads  # noqa: E402

TOOL = HERE.parents[1] / "convert" / "drc-view"
STAGE = {"x": 8, "y": 8, "width": 564, "height": 552}  # of the picture, without the panel, the line of help, and the frame of the focus
GROUND, DARK = (238, 240, 243), (20, 23, 28)
MIDDLE = (290, 280)


def net():
    """A mesh with colours and a label whose values part in the middle."""
    points, faces = lattice(12)
    rows = [(*row, 20 * row[0], 255 - 20 * row[1], 90, row[0] // 7) for row in points]
    shift, apart = {}, []
    for face in faces:  # each half of the net has points of its own where they meet
        half = min(rows[i][0] for i in face) >= 6
        apart.append(tuple(shift.setdefault((i, half), len(shift)) for i in face))
    made = [rows[i][:6] + (int(half),) for i, half in shift]
    kinds = ["int x", "int y", "int z", "uchar red", "uchar green", "uchar blue", "uchar label"]
    return Shape("net", made, apart, kinds)


class Tests:
    def __init__(self, program, folder, page):
        self.program, self.folder, self.page, self.passed, self.failed = program, folder, page, 0, 0

    def tell(self, holds, title):
        self.passed += bool(holds)
        self.failed += not holds
        if not holds:
            print(f"FAILED: {title}")

    def drc(self, words, data):
        return subprocess.run([self.program, *words], input=data, stdout=subprocess.PIPE, stderr=subprocess.PIPE, check=False).stdout

    def view(self, name, stream):
        """Writes the page of a stream; gives its path and what was said on standard error."""
        path, out = self.folder / name, self.folder / f"{name}.html"
        path.write_bytes(stream)
        ran = subprocess.run([TOOL, path, "-o", out, "--drc", self.program], stdout=subprocess.PIPE, stderr=subprocess.PIPE, check=False)
        self.tell(ran.returncode == 0 and out.exists() and not ran.stdout, f"{name}: status {ran.returncode} {ran.stderr.decode().strip()}")
        return out, ran.stderr.decode()

    def opened(self, title, path, state="drawn"):
        found = self.page.open(path)
        self.tell(found == state, f"{title}: the page is {found}, not {state}")
        return found == state

    def picture(self):
        """The stage at half size: a list of pixels row by row."""
        png = self.page.ask("Page.captureScreenshot", format="png", clip={**STAGE, "scale": 0.5})["data"]
        wide, _, rows = browser.pixels(browser.base64.b64decode(png))
        return [[tuple(row[3 * x : 3 * x + 3]) for x in range(wide)] for row in rows]

    def quiet(self, title):
        self.tell(not self.page.troubles(), f"{title}: {self.page.troubles()[:2]}")

    def changed(self, title, before, after):
        self.tell(differing(before, after) > 200, f"{title} changes {differing(before, after)} pixels")

    def set(self, name, value, event="change"):
        change = f"it.value = {json.dumps(value)}; it.dispatchEvent(new Event('{event}'));"
        self.page.run(f"(() => {{ const it = document.getElementById('{name}'); {change} }})()")
        self.page.settle()

    def click(self, name):
        middle = "it.scrollIntoView(); const r = it.getBoundingClientRect(); return [r.x + r.width / 2, r.y + r.height / 2];"
        box = self.page.run(f"(() => {{ const it = document.getElementById('{name}'); {middle} }})()")
        self.page.mouse("mousePressed", *box)
        self.page.mouse("mouseReleased", *box, held=0)
        self.page.settle()

    # The parts.

    def mesh(self):
        shape = net()
        stream = self.drc(["enc"], shape.ply())
        path, said = self.view("net.drc", stream)
        self.tell(said == "", f"the mesh: {said}")
        text = path.read_text(encoding="utf-8")
        self.tell(
            "http:" not in text and "https:" not in text and "src=" not in text and "href=" not in text, "the page names nothing outside it"
        )
        if not self.opened("the mesh", path):
            return
        self.numbers(shape, stream)
        first = self.picture()
        self.tell(of_ground(first, GROUND) < 0.9 and first[140][145] != GROUND, "the mesh is in the middle")
        self.tell(first[2][2] == GROUND, "the ground is light")
        self.tell(len({it for row in first for it in row}) > 50, "the mesh has its colours")
        self.hands(first)
        self.choices()
        self.quiet("the mesh")

    def numbers(self, shape, stream):
        """The page has the very numbers that `drc dec` writes, and says how many there are."""
        _, rows, faces = read_text(self.drc(["dec"], stream))
        tables = "Array.from(value.attributes[0].table), Array.from(table(value.corners, Uint32Array))"
        held = self.page.run(f"[{tables}, value.seams.map(it => [it.attribute, table(it.ends, Uint32Array).length / 2])]")
        self.tell(
            held[0] == [it for row in rows for it in row[:3]] and held[1] == [it for face in faces for it in face],
            "the numbers of the page",
        )
        self.tell(held[2] == [[2, 12]], f"the seams of the page: {held[2]}")
        said = self.page.run("document.querySelector('aside').innerText")
        wanted = (
            "net.drc",
            "Mesh of 288 faces",
            f"{len(rows)} points",
            f"{len(stream):,} bytes",
            "Edgebreaker",
            "Seams of attribute 2: 12 sides",
            "Borders: 48 sides",
            "0 to 12",
        )
        self.tell(all(it in said for it in wanted), f"the panel lacks {[it for it in wanted if it not in said]}")

    def hands(self, first):
        page = self.page
        page.drag((200, 250), (330, 300))
        turned = self.picture()
        self.changed("dragging", first, turned)
        page.wheel(*MIDDLE, -400)
        near = self.picture()
        self.tell(of_ground(near, GROUND) < of_ground(turned, GROUND) - 0.02, "the wheel zooms in")
        page.wheel(*MIDDLE, 900)
        self.tell(of_ground(self.picture(), GROUND) > of_ground(turned, GROUND) + 0.02, "the wheel zooms out")
        self.click("reset")
        self.tell(differing(first, self.picture()) == 0, "Reset the view gives the first picture")
        page.drag(MIDDLE, (420, 280), button="right")
        moved = self.picture()
        self.tell(centre(moved) > centre(first) + 30, f"the right button moves it: {centre(first)} to {centre(moved)}")
        page.key("r")
        self.tell(differing(first, self.picture()) == 0, "the key R gives the first picture")
        for key in ("ArrowLeft", "ArrowUp", "+", "w"):
            before = self.picture()
            page.key(key)
            self.changed(f"the key {key}", before, self.picture())
        page.key("w")
        page.key("r")
        page.touch([(250, 250)], [(300, 260)], [(360, 280)])
        self.changed("a finger", first, self.picture())
        page.key("r")
        page.touch([(250, 280), (330, 280)], [(220, 280), (360, 280)], [(180, 280), (400, 280)])
        self.tell(of_ground(self.picture(), GROUND) < of_ground(first, GROUND) - 0.02, "two fingers zoom")
        page.key("r")

    def choices(self):
        """Each colour, wireframe, flat faces, lines and the order of decoding give a picture of their own."""
        seen = []
        names = self.page.run("[...document.getElementById('colour').options].map(it => it.text)")
        self.tell({"Plain", "Colour", "Label (attribute 2)", "Order of decoding"} <= set(names), f"the colours: {names}")
        for k, name in enumerate(names):
            self.set("colour", str(k))
            shot = self.picture()
            self.tell(all(differing(shot, it) > 200 for it in seen), f"the colour {name} differs from those before")
            seen.append(shot)
        for name in ("wire", "flat"):
            before = self.picture()
            self.click(name)
            self.changed(name, before, self.picture())
            self.click(name)
        plain = self.picture()
        for k, what in enumerate(("Borders", "Seams")):
            self.page.run(f"document.querySelectorAll('#lines input')[{k}].click()")
            self.page.settle()
            shot = self.picture()
            self.tell(differing(plain, shot) > 40, f"{what} are drawn: {differing(plain, shot)} pixels")
            plain = shot
        for k in range(2):
            self.page.run(f"document.querySelectorAll('#lines input')[{k}].click()")
        shares = []
        for shown in ("0", "144", "288"):
            self.set("order", shown, "input")
            shares.append(1 - of_ground(self.picture(), GROUND))
        self.tell(shares[0] == 0 and 0.3 * shares[2] < shares[1] < 0.7 * shares[2], f"half of the faces are half of the picture: {shares}")
        self.click("play")
        self.page.run("new Promise(done => setTimeout(done, 1500))")
        self.click("play")
        shown = self.page.run("Number(document.getElementById('order').value)")
        self.tell(0 < shown < 288, f"playing shows {shown} faces after a while")

    def coated(self):
        """The surface is shaded by the file's own normals, octahedral ones as plain ones; texture coordinates are a chequered pattern."""
        points, faces = lattice(12)
        flat = [row[:2] + (0,) for row in points]
        charts = [(20 * x, 20 * y) for x, y, _ in flat]
        columns = ("int x", "int y", "int z", "char nx", "char ny", "char nz")
        in_three = ["--profile", "3", "--predict", "shape"]
        shown = {}
        for title, vector in (("towards", (0, 0, 1)), ("aside", (1, 0, 0))):
            plain = Shape("", [row + vector for row in flat], faces, columns)
            octahedral = with_heads("", flat, faces, (None, charts), (8, [on_square(vector, 8)] * len(flat)))
            for kind, shape, words in (("plain", plain, []), ("octahedral", octahedral, in_three)):
                path, said = self.view(f"{kind} {title}.drc", self.drc(["enc", *words], shape.ply()))
                self.tell(said == "", f"{kind} {title}: {said}")
                if not self.opened(f"{kind} {title}", path):
                    return
                self.set("colour", "0")
                shown[kind, title] = self.picture()
        for title in ("towards", "aside"):
            one, other = shown["plain", title], shown["octahedral", title]
            self.tell(differing(one, other) == 0, f"octahedral normals {title} shade as plain ones: {differing(one, other)} pixels")
        self.changed("another normal", shown["octahedral", "towards"], shown["octahedral", "aside"])
        self.patterns()
        self.quiet("normals and texture coordinates")

    def patterns(self):
        """The colours by texture coordinates and by normals, and what the panel says of both."""
        names = self.page.run("[...document.getElementById('colour').options].map(it => it.text)")
        self.tell({"Texture coordinate", "Normal"} <= set(names), f"the colours: {names}")
        self.set("colour", str(names.index("Texture coordinate")))
        row = [it for it in self.picture()[140] if it != GROUND]
        middle = sum(map(sum, row)) / max(1, len(row))
        edges = sum((sum(one) > middle) != (sum(other) > middle) for one, other in zip(row, row[1:]))
        self.tell(edges >= 6, f"texture coordinates are a chequered pattern: {edges} edges in a line of {len(row)} pixels")
        self.set("colour", str(names.index("Normal")))
        row = [it for it in self.picture()[140] if it != GROUND]
        self.tell(row and all(red > green and red > blue for red, green, blue in row), f"a normal along x is red: {row[:3]}")
        said = self.page.run("document.querySelector('aside').innerText")
        wanted = ("8 bits", "normals by positions", "texture coordinates by positions")
        self.tell(all(it in said for it in wanted), f"the panel lacks {[it for it in wanted if it not in said]}")

    def cloud(self):
        shape = Shape(
            "cloud", [(i * 37 % 101, i * 53 % 97, i * 71 % 89, i % 5) for i in range(600)], None, ["int x", "int y", "int z", "uchar label"]
        )
        path, _ = self.view("cloud.drc", self.drc(["enc"], shape.ply()))
        if not self.opened("the cloud", path):
            return
        first = self.picture()
        self.tell(0.01 < 1 - of_ground(first, GROUND) < 0.5, f"the cloud is drawn as points: {1 - of_ground(first, GROUND)}")
        self.tell("Cloud of 600 points" in self.page.run("document.querySelector('aside').innerText"), "the panel of the cloud")
        self.set("size", "9", "input")
        self.tell(of_ground(self.picture(), GROUND) < of_ground(first, GROUND) - 0.01, "larger points")
        self.page.drag((200, 250), (330, 300))
        self.changed("dragging the cloud", first, self.picture())
        self.quiet("the cloud")

    def refused(self):
        """A file that is refused gives a page too, and a line."""
        for title, stream, *words in (
            ("cut.drc", self.drc(["enc"], net().ply())[:150], "Short"),
            ("no.drc", b"this is no stream of the format", "Magic"),
            ("empty.drc", b"", "Short"),
        ):
            path, said = self.view(title, stream)
            self.tell(said.count("\n") == 1 and all(it in said for it in words), f"{title}: {said}")
            if self.opened(title, path, "refused"):
                text = self.page.run("document.body.innerText")
                self.tell(
                    all(f"refused {it} " in text for it in words) and f"{title} was refused" in text, f"{title}: the page says {text[:200]}"
                )
                self.tell(len([line for line in text.splitlines() if line]) >= 5, f"{title}: the fault in plain words: {text[:200]}")
                self.quiet(title)

    def odd(self):
        """Small and odd geometries, names with signs of HTML, a dark scheme, a narrow window, a browser without WebGL."""
        for title, shape, words in (
            ("one point", Shape("", [(5, 5, 5)], None), ["enc"]),
            ("no faces", Shape("", [(0, 0, 0), (1, 2, 3)], []), ["enc", "--method", "seq"]),
            ("flat", Shape("", [(0, 0, 0), (1, 0, 0), (0, 1, 0)], [(0, 1, 2), (0, 0, 1)]), ["enc", "--method", "seq"]),
            ("no position", Shape("", [(0, 7), (9, 2), (4, 4)], None, ["int a", "int b"]), ["enc"]),
            (
                "far away",
                Shape("", [(2**31 - 1, 0, 0), (2**31 - 9, 9, 0), (2**31 - 9, 0, 9)], [(0, 1, 2)]),
                ["enc", "--predict", "none"],
            ),
        ):
            path, _ = self.view(f"{title}.drc", self.drc(words, shape.ply()))
            self.opened(title, path)
            self.quiet(title)
        path, _ = self.view("<b>&\"'.drc", self.drc(["enc"], net().ply()))
        if self.opened("a name with signs", path):
            self.tell(self.page.run("document.querySelector('h1').textContent") == "<b>&\"'.drc", "a name with signs")
        self.page.ask("Emulation.setEmulatedMedia", features=[{"name": "prefers-color-scheme", "value": "dark"}])
        self.page.settle()
        shot = self.picture()
        self.tell(shot[2][2] == DARK and of_ground(shot, DARK) < 0.9, f"the dark scheme: {shot[2][2]}")
        self.page.ask("Emulation.setEmulatedMedia", features=[])
        resize(self.page, 400, 800, True)
        parts = ("getElementById('view').clientWidth", "documentElement.scrollWidth", "querySelector('aside').clientWidth")
        wide = self.page.run(f"[{', '.join(f'document.{it}' for it in parts)}]")
        self.tell(wide == [400, 400, 400], f"a narrow window: {wide}")
        resize(self.page)

    def troubles(self):
        """Without an input there is no page; an output that can't be written leaves nothing."""
        run = lambda *words: subprocess.run(
            [TOOL, *map(str, words), "--drc", self.program], stdout=subprocess.PIPE, stderr=subprocess.PIPE, check=False
        )
        out = self.folder / "none.html"
        ran = run(self.folder / "none.drc", "-o", out)
        self.tell(ran.returncode == 3 and not out.exists() and ran.stderr.count(b"\n") == 1, f"no input: {ran.returncode}")
        ran = run(self.folder / "net.drc", "-o", self.folder / "nowhere" / "page.html")
        self.tell(ran.returncode == 4 and ran.stderr.count(b"\n") == 1, f"no folder: {ran.returncode}")
        self.tell(run("--help").returncode == 0 and run("x.drc").returncode == 1, "--help, and words that lack the output")


def differing(one, other):
    return sum(a != b for rows in zip(one, other) for a, b in zip(*rows))


def of_ground(shot, ground):
    """The share of the picture that is ground."""
    return sum(it == ground for row in shot for it in row) / sum(map(len, shot))


def centre(shot):
    """The middle of the columns in which something stands."""
    places = [x for row in shot for x, it in enumerate(row) if it != GROUND]
    return sum(places) / max(1, len(places))


def resize(page, wide=900, high=600, mobile=False):
    page.ask("Emulation.setDeviceMetricsOverride", width=wide, height=high, deviceScaleFactor=1, mobile=mobile)
    page.settle()


def without_graphics(tests, folder):
    with browser.Browser(900, 600, "--disable-gpu", "--disable-3d-apis") as page:
        tests.page = page
        if tests.opened("without WebGL", folder / "net.drc.html", "undrawn"):
            text = page.run("document.body.innerText")
            tests.tell("WebGL" in text and "Mesh of 288 faces" in text, "without WebGL the numbers are there")


def main():
    if len(sys.argv) != 2:
        sys.exit(__doc__)
    program = shutil.which(sys.argv[1]) or sys.exit(f"{sys.argv[1]} isn't a program")
    missing = [] if browser.program() else ["chromium"]
    try:
        import numpy  # noqa: F401 the program needs it
    except ImportError:
        missing.append("python3-numpy")
    if missing:
        print(f"test_view.py: skipped, {' and '.join(missing)} missing")
        return
    with tempfile.TemporaryDirectory() as name:
        folder = pathlib.Path(name)
        with browser.Browser(900, 600) as page:
            resize(page)
            tests = Tests(str(pathlib.Path(program).resolve()), folder, page)
            for part in (tests.mesh, tests.coated, tests.cloud, tests.refused, tests.odd, tests.troubles):
                part()
        without_graphics(tests, folder)
        print(f"{tests.passed} passed, {tests.failed} failed")
        sys.exit(tests.failed > 0)


main()
