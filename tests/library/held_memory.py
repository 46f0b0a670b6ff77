"""What a process holds that calls the C library often, by memory.c, and what it holds by plain malloc."""
import collections
import pathlib
import subprocess

HERE = pathlib.Path(__file__).resolve().parent

# Each way of calling the library, and how often.
ROWS = [("decode", 41), ("keep", 30), ("encode", 11)]

# In bytes: held before, held at most, held when all is freed, and the arrays of a geometry.
Held = collections.namedtuple("Held", "before most freed arrays")


def meters(prefix, folder):
    """Two programs over the library that is installed at a prefix, the second by plain malloc."""
    made = []
    for name, words in (("memory", []), ("plain", ["-DPLAIN", "-Wl,--wrap=madvise", "-Wl,--wrap=posix_memalign"])):
        made.append(folder / name)
        line = ["cc", "-std=c99", "-O2", f"-I{prefix}/include", *words, HERE / "memory.c", f"{prefix}/lib/libdrc.a", "-o", made[-1]]
        subprocess.run([str(it) for it in line], check=True)
    return made


def held(meter, stream, way, count):
    done = subprocess.run([str(it) for it in (meter, stream, way, count)], stdout=subprocess.PIPE, text=True, check=True)
    return Held(*(int(it) for it in done.stdout.split()))
