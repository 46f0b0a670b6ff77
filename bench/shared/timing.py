"""Timing commands, and building the Rust programs that they are compared with."""
import os
import shutil
import subprocess


def timed(command, stdin, stdout, notes=os.devnull):
    """Processor seconds and peak bytes of a command, or None where it ends with a failure."""
    with open(stdin, "rb") as source, open(stdout, "wb") as sink, open(notes, "wb") as note:
        child = subprocess.Popen(command, stdin=source, stdout=sink, stderr=note)
    _, status, usage = os.wait4(child.pid, 0)
    child.returncode = os.waitstatus_to_exitcode(status)
    if child.returncode != 0:
        return None
    return usage.ru_utime + usage.ru_stime, 1024 * usage.ru_maxrss


def least(turns, command, stdin, stdout, notes=os.devnull):
    """The least time and the most memory of several turns, or None."""
    results = [timed(command, stdin, stdout, notes) for _ in range(turns)]
    if None in results:
        return None
    return min(time for time, _ in results), max(memory for _, memory in results)


def rust_program(folder, source):
    """The Rust program of a file, or None where there is no rustc."""
    if not shutil.which("rustc"):
        return None
    program = folder / source.stem
    options = ["-O", "-C", "lto=fat", "-C", "codegen-units=1", "--edition", "2024"]
    subprocess.run(["rustc", *options, "-o", program, source], check=True)
    return program
