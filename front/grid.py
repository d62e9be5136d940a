"""The cells of an input as the program reads them (docs/MESSAGES.md, "Inputs"), and the edits of a session."""
import re

_INT = re.compile(rb"0|-?[1-9][0-9]*")
_QUOTED = re.compile(rb'"((?:[^"]|"")*)(?:"|\Z)')
_PLAIN = {it: re.compile(rb"[^%b\r\n]*" % it) for it in (b",", b";", b"\t")}
_DECIMAL = re.compile(rb"([+-]?)([0-9]*)(?:[.,]([0-9]*))?")
_NUMBER = re.compile(rb"[0-9]{1,9}")
MOST_CELLS = 65536


def is_int(field):
    """Whether a field is a decimal number of 64 bits."""
    return bool(_INT.fullmatch(field)) and len(field) <= 20 and -(2**63) <= int(field) < 2**63


def decimal(field):
    """A number's sign, and its digits before and behind a point or a comma (None where there is none of these), or None."""
    found = _DECIMAL.fullmatch(field.strip())
    return found.groups() if found and (found[2] or found[3]) else None


def is_fraction(field):
    """Whether a field, but for blanks around it, is a number with a point or a comma."""
    parts = decimal(field)
    return parts is not None and parts[2] is not None


def records_of(data, separator=b","):
    """The records of a text of bytes, one by one: where each begins, and its fields."""
    at = 3 if data.startswith(b"\xef\xbb\xbf") else 0
    while True:
        while data[at : at + 1] in (b"\r", b"\n"):
            at += 1
        if at >= len(data):
            return
        start, fields = at, []
        while True:
            quoted = _QUOTED.match(data, at) if data[at : at + 1] == b'"' else None
            field = quoted[1].replace(b'""', b'"') if quoted else b""
            rest = _PLAIN[separator].match(data, quoted.end() if quoted else at)
            fields.append(field + rest.group())
            at = rest.end()
            if data[at : at + 1] != separator:
                break
            at += 1
        yield start, fields


def lines_as_records(data):
    """The lines of a text of bytes, one by one, as records of one field."""
    start = 0
    while start < len(data):
        end = data.find(b"\n", start)
        if end < 0:
            yield start, [data[start:]]
            return
        yield start, [data[start : end - 1] if data[start:end].endswith(b"\r") else data[start:end]]
        start = end + 1


def is_lines(name):
    """Whether an input of this name is read line by line."""
    return name.endswith(".txt")


def read(name, data):
    """The records of an input, by its name: where each begins, and its fields."""
    return lines_as_records(data) if is_lines(name) else records_of(data)


class Grid:
    """The present cells. A field is bytes, or None where the cell is empty."""

    def __init__(self, records, room=0):
        self.cells = []
        for _, fields in records:
            self.cells.append(list(fields))
            if len(self.cells) * len(fields) > MOST_CELLS:
                break
        self.had_rows = len(self.cells)
        self.cols = len(self.cells[0]) if self.cells else 0
        self.room = max(min(room, MOST_CELLS // self.cols) if self.cols else 0, self.had_rows)
        self.staged = []

    @property
    def rows(self):
        return len(self.cells)

    def stage(self, line):
        """Stages an edit of a script that the program took."""
        words = line.split(b" ", 3)
        if words[0] == b"set" and len(words) == 4 and all(_NUMBER.fullmatch(it) for it in words[1:3]):
            self.staged.append((int(words[1]), int(words[2]), words[3]))
        elif words[0] == b"rows" and len(words) == 2 and _NUMBER.fullmatch(words[1]):
            self.staged.append((int(words[1]), None, None))

    def commit(self):
        """Puts what is staged into the cells."""
        for row, column, field in self.staged:
            if column is None:
                del self.cells[row:]
                self.cells.extend([None] * self.cols for _ in range(row - len(self.cells)))
            elif row < len(self.cells) and column < self.cols:
                self.cells[row][column] = field
        self.staged = []
