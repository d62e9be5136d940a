"""The model against stored repairs: pairs of records, whose work lines were worked out apart from it."""
import os
import re
import sys
import unittest
import zipfile

import record
import session

sys.setrecursionlimit(20000)
CASES = os.path.join(os.path.dirname(os.path.abspath(__file__)), "..", "tools", "data", "cases.zip")
NAME = rb"(?:c/[0-9]+/[0-9]+|o/[0-9]+|r|m/[0-3]*)"
READ = re.compile(rb" (" + NAME + rb')=((?:"(?:[^"\\]|\\.)*"|[^ "]+))', re.S)


def name_of(text):
    """The name of a modifiable, from its form in a dump."""
    sort, *rest = text.decode().split("/")
    if sort == "m":
        return ("made", rest[0])
    return {"c": "input", "o": "output", "r": "rows"}[sort], *map(int, rest)


def value_of(text):
    """A value, from its form in a dump. A text stays as it is printed there."""
    if text[:1] == b"&":
        names = [name_of(it) for it in text[1:].split(b",")]
        return ("ref" if len(names) == 1 else "pair", *names)
    if text in (b"nil", b"true", b"false"):
        return ("nil",) if text == b"nil" else ("bool", text == b"true")
    return ("text", text) if text[:1] == b'"' else ("int", int(text))


class Dump:
    """The tree of a dump, in the model's form. Its parts stand in the order in which they are met."""

    def __init__(self, given):
        self.lines, self.at = given.split(b"\n")[1:], 0
        self.tree = self.part("")

    def part(self, path):
        line = self.lines[self.at]
        self.at += 1
        kind = line[:1]
        if kind == b"E":
            return None
        if kind == b"A":
            return record.Alloc(("made", path), self.part(path + "3"))
        if kind == b"W":
            _, name, value = line.split(b" ", 2)
            return record.Write(name_of(name), value_of(value), self.part(path + "3"))
        if kind == b"R":
            reads = [(name_of(name), value_of(value)) for name, value in READ.findall(line.partition(b" |")[2])]
            return record.Read(int(line.split(b" ")[1]), reads, self.part(path + "2"), {})
        left, right = self.part(path + "0"), self.part(path + "1")
        return record.Sequence(left, right) if kind == b"S" else record.Parallel(left, right)


class Repairs(unittest.TestCase):
    def test_work_lines(self):
        with zipfile.ZipFile(CASES) as cases:
            names = sorted({it.split("/")[0] for it in cases.namelist()})
            self.assertEqual(len(names), 200)
            for name in names:
                old, new = [Dump(cases.read(f"{name}/{it}.dump")).tree for it in ("before", "after")]
                work = record.repair(old, record.Redone(old, new), session.CAPS)
                self.assertEqual(work.line() + "\n", cases.read(f"{name}/work").decode(), name)


if __name__ == "__main__":
    unittest.main()
