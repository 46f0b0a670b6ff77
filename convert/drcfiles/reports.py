"""The report of many files as CSV: written row by row, so that a run that was broken off goes on where it stopped."""
import csv
import io
import os
import pathlib

from . import files
from .many import COLUMNS, Row
from .trouble import WRITING, Trouble


def as_csv(rows, with_head=True):
    text = io.StringIO()
    writer = csv.writer(text, lineterminator="\n")
    if with_head:
        writer.writerow(COLUMNS)
    for row in rows:
        writer.writerow([getattr(row, name) for name in COLUMNS])
    return text.getvalue().encode("utf-8", "surrogateescape")


def rows_before(path):
    """The rows of an earlier run by their files, each file's last one; a row that was cut is left out."""
    if not os.path.isfile(path):
        return {}
    try:
        text = pathlib.Path(path).read_text(encoding="utf-8", errors="surrogateescape")
    except OSError:
        return {}
    lines = list(csv.reader(io.StringIO(text.rpartition("\n")[0])))
    if not lines or tuple(lines[0]) != COLUMNS:
        return {}
    rows = {}
    for cells in lines[1:]:
        if len(cells) == len(COLUMNS) and cells[4].isdigit() and cells[5].isdigit():
            row = Row(*cells)
            row.before, row.after = int(row.before), int(row.after)
            rows[row.file] = row
    return rows


def is_report(path):
    """Whether a file begins as a report does, or is empty."""
    head = as_csv([])
    try:
        with open(path, "rb") as file:
            return file.read(len(head)) in (b"", head)
    except OSError:
        return False


class Report:
    """The file of the report: begun with the rows that still count and those of files that are to be done anew, grown row by row, put in
    order at the end. A file that is no report is replaced with leave alone; a device or a pipe is written to."""

    def __init__(self, path, rows, anew=(), inputs=(), may_replace=False):
        self.path, self.rows = path, list(rows)
        self.is_poured = files.is_poured(path, files.status_of(path, True))
        files.check(inputs, [path], may_replace or self.is_poured or is_report(path))
        try:
            pathlib.Path(path).parent.mkdir(parents=True, exist_ok=True)
            if self.is_poured:
                self.file = open(1, "wb", 0, closefd=False) if files.is_standard_output(path) else open(os.open(path, os.O_WRONLY), "wb", 0)
                self.file.write(as_csv(self.rows))
            else:
                files.write(path, as_csv([*self.rows, *anew]), inputs, True)
                self.file = open(path, "ab", buffering=0)
        except OSError as why:
            raise Trouble(f"{path} can't be written: {why.strerror}", WRITING) from why

    def add(self, row):
        self.rows.append(row)
        try:
            self.file.write(as_csv([row], False))
        except OSError as why:
            raise Trouble(f"{self.path} can't be written: {why.strerror}", WRITING) from why

    def end(self, more=()):
        """Ends the report with the rows of what was passed over."""
        for row in more if self.is_poured else ():
            self.add(row)
        self.file.close()
        self.rows = sorted([*self.rows, *(() if self.is_poured else more)], key=lambda row: row.file)
        if not self.is_poured:
            files.write(self.path, as_csv(self.rows), may_replace=True)
