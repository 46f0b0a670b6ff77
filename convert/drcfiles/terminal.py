"""The line of progress, command lines, and how a program ends."""
import argparse
import os
import shutil
import signal
import sys
import threading
import time
import traceback

from .files import is_standard_output
from .trouble import BAD_WORDS, MEMORY, MISSING, Trouble

BAR = 24  # how wide a bar of progress is


class Progress:
    """A line on standard error that says how far the work is. Where that isn't a terminal, or the work is short, it says nothing.

    While one step takes long, the line is written again every half second with the seconds that went by."""

    def __init__(self, title, total=0, after=0.5, is_bar=False):
        self.title, self.total, self.done, self.what, self.is_bar = title, total, 0, "", is_bar
        self.start, self.after, self.is_shown = time.monotonic(), after, False
        self.ended = threading.Event()
        self.thread = None
        if sys.stderr.isatty():
            self.thread = threading.Thread(target=self.keep_writing, daemon=True)
            self.thread.start()

    def step(self, what="", by=1):
        """So much more is done; `what` is what was done last, or is done now."""
        self.done += by
        self.what = what

    def say(self, what):
        """What is done now."""
        self.step(what, 0)

    def line(self):
        part = f" {self.done:,} of {self.total:,}" if self.total else ""
        if self.is_bar and self.total:
            full = BAR * self.done // self.total
            part = f" [{'#' * full}{' ' * (BAR - full)}]{part}"
        return f"{self.title}{part} {self.what} {time.monotonic() - self.start:.0f} s"

    def keep_writing(self):
        wait = self.after
        while not self.ended.wait(wait):
            wait = 0.25
            self.is_shown = True
            sys.stderr.write("\r\x1b[K" + self.line()[: max(20, shutil.get_terminal_size().columns - 1)])
            sys.stderr.flush()

    def end(self):
        """Takes the line away."""
        self.ended.set()
        if self.thread:
            self.thread.join()
        if self.is_shown:
            self.is_shown = False
            sys.stderr.write("\r\x1b[K")
            sys.stderr.flush()

    def __enter__(self):
        return self

    def __exit__(self, *_):
        self.end()


class Words(argparse.ArgumentParser):
    """A command line whose bad words end with status 1, as those of `drc`."""

    def __init__(self, **more):
        super().__init__(formatter_class=argparse.RawDescriptionHelpFormatter, allow_abbrev=False, **more)

    def error(self, message):
        self.exit(BAD_WORDS, f"{self.prog}: {message}; {self.prog} --help lists the words\n")


def add_drc(words):
    """The option that names the program `drc`."""
    words.add_argument("--drc", metavar="PATH", help="the program `drc`; else the variable DRC, the repository's own, or that of the PATH")


def add_force(words):
    """The option that gives leave to replace what is there."""
    words.add_argument("--force", action="store_true", help="replaces outputs that are there already; an input is never written over")


def say(program, line):
    """One line on standard error."""
    print(f"{program}: {line}", file=sys.stderr)


def report(lines, *outs):
    """Lines about what was done, on standard output, or where an output goes there, on standard error."""
    for line in lines:
        print(line, file=sys.stderr if any(it is not None and is_standard_output(it) for it in outs) else sys.stdout)


class Stopped(KeyboardInterrupt):
    """That a signal asks the program to end: Ctrl-C's, or one that ends it in another way."""

    def __init__(self, number):
        super().__init__()
        self.number = number


def stop(number, _):
    raise Stopped(number)


def run(program, main):
    """Runs main() and ends: with its status, or with one line and a status where there is trouble, or by the signal that asked for it."""
    if signal.getsignal(signal.SIGINT) == signal.SIG_DFL:
        signal.signal(signal.SIGINT, signal.default_int_handler)
    for number in (signal.SIGTERM, signal.SIGHUP):
        if signal.getsignal(number) == signal.SIG_DFL:
            signal.signal(number, stop)
    try:
        sys.exit(main())
    except Trouble as why:
        say(program, why.line)
        sys.exit(why.status)
    except MemoryError:
        say(program, "out of memory")
        sys.exit(MEMORY)
    except BrokenPipeError:
        os.dup2(os.open(os.devnull, os.O_WRONLY), 1)
        sys.exit(4)
    except Exception:
        traceback.print_exc()
        say(program, "an error of this program, not of the file; what is above says where")
        sys.exit(MISSING)
    except KeyboardInterrupt as why:
        number = getattr(why, "number", signal.SIGINT)
        say(program, str(why) or "broken off")
        signal.signal(number, signal.SIG_DFL)
        os.kill(os.getpid(), number)
