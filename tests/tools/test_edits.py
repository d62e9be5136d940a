import os
import random
import re
import subprocess
import tempfile
import unittest

from common import PROGRAM, data, run, tool

edits = tool("edits")
FIELDS = [b"", b"0", b"-0", b"7", b"-7", b"007", b"9223372036854775807", b"9223372036854775808", b" 5", b"5 ", b"a b", b'x"y', b"a,b",
          b"\r", b"a\r", b"a\rb", "\u00e9\u2028".encode(), b"#", b"\x00", b"commit"]


def quoted(field, always=False):
    special = always or field == b"" or any(c in field for c in b'",\r\n')
    return b'"' + field.replace(b'"', b'""') + b'"' if special else field


def csv(rows, rnd=random):
    return b"".join(b",".join(quoted(f, rnd.random() < .1) for f in row) + b"\n" for row in rows)


def carried_out(script, rows):
    """The rows after the script's edits, by the rules of scripts; a cell of a new row is None."""
    rows = [list(r) for r in rows]
    columns = len(rows[0])
    for line in script.split(b"\n")[:-1]:
        line = line[:-1] if line[-1:] == b"\r" else line
        if line == b"commit":
            continue
        m = re.fullmatch(rb"rows ([0-9]{1,9})", line)
        if m:
            rows = rows[:int(m[1])] + [[None] * columns for _ in range(int(m[1]) - len(rows))]
            continue
        m = re.fullmatch(rb"set ([0-9]{1,9}) ([0-9]{1,9}) (.*)", line, re.S)
        rows[int(m[1])][int(m[2])] = m[3]
    return rows


def pair(rnd):
    columns = rnd.randrange(1, 4)
    old = [[rnd.choice(FIELDS) for _ in range(columns)] for _ in range(rnd.randrange(1, 6))]
    new = [[old[r][c] if r < len(old) and rnd.random() < .6 else rnd.choice(FIELDS) for c in range(columns)]
           for r in range(rnd.randrange(1, 6))]
    return old, new


class Writing(unittest.TestCase):
    def test_csv(self):
        for text, rows in (
                (b"", []), (b"\n\r\n", []), (b"a,b\n", [[b"a", b"b"]]), (b"a,b", [[b"a", b"b"]]), (b"a\rb\r\nc\n\n", [[b"a"], [b"b"], [b"c"]]),
                (b",", [[b"", b""]]), (b'""', [[b""]]), (b'"a""b","c\nd"\n', [[b'a"b', b"c\nd"]]), (b'a"b"', [[b'a"b"']]),
                (b'"a"b"c', [[b'ab"c']]), (b'"a', [[b"a"]]), (b"\xef\xbb\xbfa", [[b"a"]]), (b' "a"', [[b' "a"']]), (b'"",x', [[b"", b"x"]])):
            self.assertEqual(list(edits.records_of(text)), rows, text)
        self.assertEqual(edits.lines_of(b"a\r\n\nb\r"), [b"a", b"", b"b\r"])

    def test_stored(self):
        self.assertEqual(run(["edits", "sales.csv", "sales-new.csv"]), (data("sales.script"), b"", 0))
        self.assertEqual(run(["edits", "sales.csv", "sales.csv"]), (b"commit\n", b"", 0))

    def test_random(self):
        """The script leads from one input to the other, and has one `set` for each cell that differs and no more."""
        rnd = random.Random(1)
        for _ in range(3000):
            old, new = pair(rnd)
            a, b = edits.load("a.csv", csv(old, rnd)), edits.load("b.csv", csv(new, rnd))
            self.assertEqual((a, b), (old, new))
            script = b"".join(edits.script(a, b))
            self.assertEqual(carried_out(script, old), new)
            differ = sum(r >= len(old) or old[r][c] != f for r, row in enumerate(new) for c, f in enumerate(row))
            self.assertEqual(len(re.findall(rb"^set ", script, re.M)), differ)

    def test_refused(self):
        for old, new, why in (
                (b"a,b\n", b"a\n", r"a.csv has 2 columns and b.csv has 1: edits can't change"),
                (b"a\n", b"", "for no rows at all, the edit is: rows 0"), (b"", b"a\n", "can't change the number of columns"),
                (b"a\n", b'"a\nb"\n', "row 0 and column 0 has a line feed"), (b"a\n", b"a\nb,c\n", "b.csv: record 2 has 2 fields"),
                (b"a\n", b"\xff\n", "b.csv: record 1 is not UTF-8"), (b"a\n", b"a\n" * 65537, "record 65537: more than 65536 cells"),
                (b"\n".join(b"a%d" % i for i in range(40000)), b"\n".join(b"b%d" % i for i in range(40000)), "more texts")):
            with self.assertRaisesRegex(edits.CantSay, why):
                edits.script(edits.load("a.csv", old), edits.load("b.csv", new), "a.csv", "b.csv")
        # a line feed that was there before is no edit
        self.assertEqual(edits.script([[b"a\nb", b"1"]], [[b"a\nb", b"2"]]), [b"set 0 1 2\n", b"commit\n"])
        self.assertEqual(edits.script([], []), [b"commit\n"])

    def test_more_rows(self):
        with tempfile.TemporaryDirectory() as folder:
            for name, text in (("a.txt", b"1\n2\n"), ("b.txt", b"1\n2\n\n")):
                with open(os.path.join(folder, name), "wb") as f:
                    f.write(text)
            self.assertEqual(run(["edits", "a.txt", "b.txt"], folder=folder),
                             (b"rows 3\nset 2 0 \ncommit\n", b"psac-edits: the session needs room for new rows: --rows 3\n", 0))
            self.assertEqual(run(["edits", "b.txt", "a.txt"], folder=folder), (b"rows 2\ncommit\n", b"", 0))


@unittest.skipUnless(os.path.exists(PROGRAM), "the program isn't built")
class Live(unittest.TestCase):
    """The built program: the outputs after the script are those of a run over the new input."""

    def psac(self, words, stdin=b""):
        return subprocess.run([PROGRAM] + words, input=stdin, stdout=subprocess.PIPE, cwd=self.folder).stdout

    def test_round_trip(self):
        rnd = random.Random(2)
        with tempfile.TemporaryDirectory() as self.folder:
            for _ in range(40):
                old, new = pair(rnd)
                columns, room = len(old[0]), max(len(old), len(new))
                outs = [(r, c) for r in range(room) for c in range(columns)]
                program = "func main(; n%s) {\n  read rows() as k { write n = k; }\n" % "".join(", o%d_%d" % o for o in outs)
                for r, c in outs:
                    program += "  read cell({0}, {1}) as x{0}_{1} {{ write o{0}_{1} = x{0}_{1}; }}\n".format(r, c)
                for name, text in (("p.psac", (program + "}\n").encode()), ("old.csv", csv(old, rnd)), ("new.csv", csv(new, rnd))):
                    with open(os.path.join(self.folder, name), "wb") as f:
                        f.write(text)
                script = run(["edits", "old.csv", "new.csv"], folder=self.folder)[0]
                room = ["--rows", str(room)]
                once = self.psac(["once", "p.psac", "new.csv"] + room)
                after = self.psac(["session", "p.psac", "old.csv"] + room, b"commit\n" + script + b"show\n")
                self.assertEqual(after.split(b"\n", 2)[2], once)


if __name__ == "__main__":
    unittest.main()
