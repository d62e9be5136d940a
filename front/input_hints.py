"""Hints on an input that is refused: the record itself, and what is wrong with it."""
from itertools import islice

from front import grid
from front.program_hints import CHANGED
from front.screen import code, short
from front.tokens import is_utf8
from front.wording import counted


class Refused:
    """The record that is refused, among those of its file."""

    def __init__(self, source, number, records):
        self.source, self.number = source, number
        (_, self.first), (self.start, self.fields) = records[0], records[-1]

    def place(self):
        """The record with its place."""
        line = self.source.data.count(b"\n", 0, self.start) + 1
        place = f"record {self.number}"
        if grid.is_lines(self.source.name):
            place = f"line {self.number}"
        elif line != self.number:
            place += f", at line {line}"
        return [f"{short(self.source.name, 60)}, {place}:", "  " + short(b",".join(self.fields), 60)]


def refused(source, number, text):
    """Hints on 'input record N TEXT'."""
    records = list(islice(grid.read(source.name, source.data), number))
    if len(records) < number:
        return [CHANGED]
    record = Refused(source, number, records)
    return record.place() + CAUSES.get(text, lambda _: [])(record)


def ragged(record):
    lines = [
        f"it has {counted(len(record.fields), 'field')}, and the first record has {len(record.first)}",
        "an empty field still needs its comma, and a field with a comma in it needs quotes around it",
    ]
    if any(has_other_separators(it) for it in (record.fields, record.first)):
        lines.append(OTHER_SEPARATORS)
    elif any(b"\n" in it for it in record.fields):
        lines.append("one of its fields goes on over a line end, so a quote may be missing")
    return lines


def not_utf8(record):
    wrong = next((at for at, it in enumerate(record.fields) if not is_utf8(it)), None)
    lines = []
    if wrong is not None:
        lines.append(f"field {wrong} (counted from 0) isn't UTF-8: {short(record.fields[wrong])}")
    return [*lines, "save the file as UTF-8; one in Latin-1 is turned into that by: " + code("iconv -f latin1 -t utf-8")]


def too_many_cells(record):
    rows, columns = record.number, len(record.first)
    return [
        f"{counted(rows, 'row')} of {counted(columns, 'field')} are {rows * columns:,} cells, and 65,536 are the most",
        "split the input, or leave out columns that the program doesn't read",
    ]


def too_many_texts(_record):
    return [
        "65,536 different texts are the most, with 16,777,216 bytes together, the program's own among them",
        "use numbers in place of texts where they serve",
    ]


CAUSES = {
    "ragged": ragged,
    "not utf-8": not_utf8,
    "too many cells": too_many_cells,
    "too many texts": too_many_texts,
}
OTHER_SEPARATORS = (
    "psac reads commas between fields, and here semicolons or tabs seem to stand; "
    "psac-table turns such a table into an input"
)


def has_other_separators(fields):
    """Whether a record of one field looks like several with other separators than commas."""
    return len(fields) == 1 and (b";" in fields[0] or b"\t" in fields[0])
