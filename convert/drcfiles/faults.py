"""The kinds of faults in plain words, read from the tables of docs/FAULTS.md, which is the one place that has them."""
import functools
import pathlib
import re
from typing import NamedTuple

TABLE = pathlib.Path(__file__).resolve().parents[2] / "docs" / "FAULTS.md"


class Fault(NamedTuple):
    word: str
    means: str
    number: str  # where the fault's number points
    helps: str


@functools.lru_cache(maxsize=None)
def faults():
    """Each kind by its word. Without docs/FAULTS.md there are none, and a fault is its word and number alone."""
    try:
        lines = TABLE.read_text(encoding="utf-8").splitlines()
    except OSError:
        return {}
    rows = ([cell.strip() for cell in line.strip("|").split(" | ")] for line in lines if re.match(r"\| `\w+` \|", line))
    return {row[0].strip("`"): Fault(row[0].strip("`"), *row[1:]) for row in rows}


def in_words(word, number):
    """One line for `refused <word> <number>`: the note itself, what it means, where the number points, and what helps."""
    note = f"refused {word} {number}"
    fault = faults().get(word)
    return f"{note}: {fault.means} (the number is {fault.number}); what helps: {fault.helps}".replace("`", "") if fault else note
