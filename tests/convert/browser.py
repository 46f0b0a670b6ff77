"""A headless browser for the tests: Chromium driven through its pipe, with real mouse, wheel, touch and key events, and its screenshots."""
import base64
import json
import os
import select
import shutil
import struct
import subprocess
import tempfile
import time
import zlib

FLAGS = """--headless --no-sandbox --disable-dev-shm-usage --use-gl=angle --use-angle=swiftshader --enable-unsafe-swiftshader
    --hide-scrollbars --no-first-run"""


def program():
    return shutil.which("chromium")


class Browser:
    """One page of a browser. Each command waits for its answer; what the page does meanwhile is kept in `events`."""

    def __init__(self, wide=900, high=600, *flags):
        self.folder = tempfile.TemporaryDirectory()
        self.number, self.events, self.left = 0, [], b""
        to_read, self.write_end = os.pipe()
        self.read_end, to_write = os.pipe()
        words = [
            program(),
            *FLAGS.split(),
            f"--window-size={wide},{high}",
            f"--user-data-dir={self.folder.name}",
            "--remote-debugging-pipe",
            *flags,
        ]
        script = f'exec 3<&{to_read} 4>&{to_write}; exec "$@"'
        self.process = subprocess.Popen(
            ["sh", "-c", script, "sh", *words, "about:blank"],
            pass_fds=(to_read, to_write),
            stdin=subprocess.DEVNULL,
            stdout=subprocess.DEVNULL,
            stderr=subprocess.DEVNULL,
        )
        os.close(to_read)
        os.close(to_write)
        self.session = None
        target = next(it for it in self.ask("Target.getTargets")["targetInfos"] if it["type"] == "page")
        self.session = self.ask("Target.attachToTarget", targetId=target["targetId"], flatten=True)["sessionId"]
        for part in ("Page", "Runtime", "Network", "Log"):
            self.ask(f"{part}.enable")

    def __enter__(self):
        return self

    def __exit__(self, *_):
        try:
            self.session = None
            self.ask("Browser.close")
        except OSError:
            pass
        try:
            self.process.wait(20)
        except subprocess.TimeoutExpired:
            self.process.kill()
            self.process.wait()
        os.close(self.write_end)
        os.close(self.read_end)
        try:
            self.folder.cleanup()
        except OSError:
            pass  # the browser's last helpers may still write there

    def ask(self, method, wait=60, **parameters):
        self.number += 1
        message = {"id": self.number, "method": method, "params": parameters}
        if self.session:
            message["sessionId"] = self.session
        os.write(self.write_end, json.dumps(message).encode() + b"\0")
        end = time.monotonic() + wait
        while True:
            answer = self.next(end)
            if answer.get("id") == self.number:
                if "error" in answer:
                    raise OSError(f"{method}: {answer['error']}")
                return answer["result"]

    def next(self, end):
        """The next message, which is kept where it is an event."""
        while b"\0" not in self.left:
            ready, _, _ = select.select([self.read_end], [], [], max(0, end - time.monotonic()))
            part = os.read(self.read_end, 1 << 20) if ready else b""
            if not part:
                raise OSError("the browser says nothing")
            self.left += part
        text, _, self.left = self.left.partition(b"\0")
        message = json.loads(text)
        if "method" in message:
            self.events.append(message)
        return message

    def run(self, script):
        """The value of a script in the page."""
        answer = self.ask("Runtime.evaluate", expression=script, awaitPromise=True, returnByValue=True)
        if "exceptionDetails" in answer:
            raise OSError(answer["exceptionDetails"].get("exception", {}).get("description", "a script failed"))
        return answer["result"].get("value")

    def open(self, path, states=("drawn", "refused", "undrawn")):
        """Loads a page from its file; gives the state that it says at its end, or None."""
        self.events.clear()
        self.ask("Page.navigate", url=path.resolve().as_uri())
        for _ in range(300):
            state = self.run("document.readyState === 'complete' && document.body ? document.body.dataset.state || '' : ''")
            if state in states:
                self.settle()
                return state
            time.sleep(0.1)
        return None

    def settle(self):
        """Waits until the page has drawn what was asked for."""
        self.run("new Promise(done => requestAnimationFrame(() => requestAnimationFrame(done)))")

    def mouse(self, kind, x, y, button="left", held=1, **more):
        self.ask("Input.dispatchMouseEvent", type=kind, x=x, y=y, button=button, buttons=held, clickCount=1, **more)

    def drag(self, start, end, button="left", modifiers=0):
        held = {"left": 1, "right": 2}[button]
        self.mouse("mouseMoved", *start, "none", 0)
        self.mouse("mousePressed", *start, button, held, modifiers=modifiers)
        for k in range(1, 6):
            x, y = (a + (b - a) * k / 5 for a, b in zip(start, end))
            self.mouse("mouseMoved", x, y, button, held, modifiers=modifiers)
        self.mouse("mouseReleased", *end, button, 0, modifiers=modifiers)
        self.settle()

    def wheel(self, x, y, by):
        self.mouse("mouseWheel", x, y, "none", 0, deltaX=0, deltaY=by)
        self.settle()

    def touch(self, *steps):
        """Fingers that go down at the first step, move through the others, and leave: each step has a place for each finger."""
        points = lambda step: [{"x": x, "y": y, "id": k} for k, (x, y) in enumerate(step)]
        self.ask("Input.dispatchTouchEvent", type="touchStart", touchPoints=points(steps[0]))
        for step in steps[1:]:
            self.ask("Input.dispatchTouchEvent", type="touchMove", touchPoints=points(step))
        self.ask("Input.dispatchTouchEvent", type="touchEnd", touchPoints=[])
        self.settle()

    def key(self, key):
        text = {"text": key} if len(key) == 1 else {}
        for kind in ("keyDown", "keyUp"):
            self.ask("Input.dispatchKeyEvent", type=kind, key=key, **(text if kind == "keyDown" else {}))
        self.settle()

    def screenshot(self):
        """The picture as bytes of PNG."""
        return base64.b64decode(self.ask("Page.captureScreenshot", format="png")["data"])

    def troubles(self):
        """What the page said on its console as errors, and what it asked of a network, since it was opened."""
        found = []
        for it in self.events:
            more = it["params"]
            if it["method"] == "Runtime.exceptionThrown":
                found.append(more["exceptionDetails"].get("exception", {}).get("description", "exception"))
            elif (
                it["method"] == "Log.entryAdded"
                and more["entry"]["level"] == "error"
                or it["method"] == "Runtime.consoleAPICalled"
                and more["type"] == "error"
            ):
                found.append(json.dumps(more)[:300])
            elif it["method"] == "Network.requestWillBeSent" and not more["request"]["url"].startswith(("file:", "data:", "about:")):
                found.append(more["request"]["url"])
        return found


def pixels(png):
    """The picture of a PNG of 8 bits, colours or colours with alpha: its width, its height, and rows of bytes, three for each pixel."""
    place, packed, wide, high, kind = 8, b"", 0, 0, 0
    while place < len(png):
        size, name = struct.unpack_from(">I4s", png, place)
        part = png[place + 8 : place + 8 + size]
        if name == b"IHDR":
            wide, high, _, kind = struct.unpack_from(">IIBB", part)
        elif name == b"IDAT":
            packed += part
        place += 12 + size
    each = {2: 3, 6: 4}[kind]
    data, rows, before = zlib.decompress(packed), [], bytes(wide * each)
    for y in range(high):
        filtered = data[y * (wide * each + 1) : (y + 1) * (wide * each + 1)]
        before = unfiltered(filtered[0], bytearray(filtered[1:]), before, each)
        rows.append(bytes(before) if each == 3 else b"".join(bytes(before[4 * x : 4 * x + 3]) for x in range(wide)))
    return wide, high, rows


def unfiltered(kind, row, above, each):
    if kind == 1:
        for i in range(each, len(row)):
            row[i] = (row[i] + row[i - each]) & 255
    elif kind == 2:
        for i, it in enumerate(above):
            row[i] = (row[i] + it) & 255
    elif kind == 3:
        for i, it in enumerate(above):
            row[i] = (row[i] + ((row[i - each] if i >= each else 0) + it) // 2) & 255
    elif kind == 4:
        for i, it in enumerate(above):
            left, corner = (row[i - each], above[i - each]) if i >= each else (0, 0)
            guess = left + it - corner
            near = min((abs(guess - left), 0, left), (abs(guess - it), 1, it), (abs(guess - corner), 2, corner))
            row[i] = (row[i] + near[2]) & 255
    return row
