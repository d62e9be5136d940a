"""Inputs: fields, texts, the grid, and the two forms of file."""
import csv
import io
import re

INT = re.compile(rb"0|-?[1-9][0-9]*")
CELLS, TEXTS, TEXT_BYTES = 65536, 65536, 16777216
NIL = ("nil",)


class BadText(Exception):
    """A field that isn't UTF-8, or a new text where the list of texts is full: `why` says which."""

    def __init__(self, why):
        self.why = why


class Refused(Exception):
    """The input is refused with this line."""


class Texts:
    """The list of distinct texts. Only its limits are seen from outside."""

    def __init__(self, known=()):
        self.known, self.bytes = set(), 0
        for it in known:
            self.add(it)

    def add(self, text):
        try:
            text.decode("utf-8")
        except UnicodeDecodeError:
            raise BadText("utf8") from None
        if text not in self.known:
            if len(self.known) == TEXTS or self.bytes + len(text) > TEXT_BYTES:
                raise BadText("limit")
            self.known.add(text)
            self.bytes += len(text)

    def field(self, given):
        """The value of a field."""
        if INT.fullmatch(given) and -(2**63) <= int(given) < 2**63:
            return ("int", int(given))
        self.add(given)
        return ("text", given)


class Grid:
    """The cells by rows, with the number of rows that it was opened with, the room for rows and the present number of them."""

    def __init__(self, records, room=0):
        self.opened = self.rows = len(records)
        self.columns = len(records[0]) if records else 0
        self.room = max(self.opened, min(room, CELLS // self.columns)) if self.columns else self.opened
        self.cells = {(row, column): value for row, record in enumerate(records) for column, value in enumerate(record)}

    def value(self, row, column):
        return self.cells.get((row, column), NIL)

    def copy(self):
        its = Grid([])
        its.opened, its.rows, its.columns, its.room, its.cells = self.opened, self.rows, self.columns, self.room, dict(self.cells)
        return its

    def is_inside(self, row, column):
        return row < self.rows and column < self.columns

    def set_rows(self, rows):
        """Makes another number of rows present. The cells of rows that go are emptied."""
        self.rows = rows
        self.cells = {at: value for at, value in self.cells.items() if at[0] < rows}


def lines_of(given):
    """Lines without their line feed and a carriage return before it; a last one that isn't ended counts."""
    lines = given.split(b"\n")
    last = lines.pop()
    return [it[:-1] if it.endswith(b"\r") else it for it in lines] + ([last] if last else [])


def records_of(given):
    """The records of a CSV file."""
    given = given.removeprefix(b"\xef\xbb\xbf")
    text = io.StringIO(given.decode("latin-1"), newline="")
    return [[field.encode("latin-1") for field in record] for record in csv.reader(text) if record]


def load(name, given, texts, room):
    """The grid of a file; raises Refused."""
    records = [[it] for it in lines_of(given)] if name.endswith(".txt") else records_of(given)
    found = []
    for at, record in enumerate(records, 1):
        if len(record) != len(records[0]):
            raise Refused(f"input record {at} ragged")
        if at * len(record) > CELLS:
            raise Refused(f"input record {at} too many cells")
        try:
            found.append([texts.field(it) for it in record])
        except BadText as bad:
            raise Refused(f"input record {at} {'not utf-8' if bad.why == 'utf8' else 'too many texts'}") from None
    return Grid(found, room)
