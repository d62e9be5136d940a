"""`psac explain`: what it tells of the last commit of a script, and what of scripts that it can't tell of."""
import os
import sys

import support

sys.path.insert(0, f"{support.ROOT}/tests/model")
sys.setrecursionlimit(20000)

import chance  # noqa: E402

EXAMPLES = f"{support.ROOT}/examples"
# The sum of a column, which grows; `rows` is the number of rows that the input had.
GROWING = """func main(; out, had) {
  write had = rows;
  read rows() as n { call sum(0, n; out); }
}
func sum(low, high; d) {
  if low == high { write d = 0; } else {
    new rest;
    call sum(low + 1, high; rest);
    read cell(low, 0) as x, rest as y { write d = x + y; }
  }
}
"""
COPY = "func main(; out) { read cell(0, 0) as x { write out = x; } }"
BEGIN = b"commit 2, in line 3 of the script:\n"
ANEW = b"mode=anew visited=0 rerun=0 inside=1 dropped=0 nodes=2 mods=0 links=1\n"


def example(name):
    """The words that explain an example, and its script's last commit as its output has it."""
    folder = f"{EXAMPLES}/{name}"
    given = next(it for it in sorted(os.listdir(folder)) if it.startswith("input."))
    with open(f"{folder}/output.txt", "rb") as file:
        last = [it for it in file.read().splitlines() if it.startswith((b"mode=", b"fault "))][-1]
    return ["explain", *(f"{folder}/{it}" for it in ("program.psac", given, "script.txt"))], last


class Explain(support.Case):
    def explained(self, *more, status=0, script=None, errors=b""):
        """What is told of the files of the test."""
        if script is not None:
            self.save("script", script)
        got = support.launched(["explain", *more], self.folder)
        self.assertEqual((got[0], got[2]), (status, errors), got)
        return got[1]

    def both(self, program, given, script, *more, name="cells.csv"):
        """What is told of a script, whose last line has to be the session's."""
        self.save("p.psac", program)
        self.save(name, given)
        told = self.explained("p.psac", name, "script", *more, script=script)
        session = support.bare(["session", "p.psac", name, *more], self.folder, script)[1].splitlines()
        self.assertEqual(told.splitlines()[-1], session[-1])
        return told

    def test_sales(self):
        words, _ = example("sales")
        with open(f"{EXAMPLES}/sales/explained.txt", "rb") as file:
            wanted = b"commit 2, in line 4 of the script:\n" + file.read()
        self.assertEqual(support.launched(words), (0, wanted, b""))
        with open(words[-1], "rb") as file:
            self.assertEqual(support.launched([*words[:-1], "-"], given=file.read())[1], wanted)

    def test_build(self):
        with open(f"{EXAMPLES}/build/explained.txt", "rb") as file:
            self.assertEqual(support.launched(example("build")[0]), (0, file.read(), b""))

    def test_examples(self):
        for name in sorted(it.name for it in os.scandir(EXAMPLES) if it.is_dir() and it.name != "growing"):
            words, last = example(name)
            status, told, errors = support.launched(words)
            self.assertEqual((status, told.splitlines()[-1], errors), (0, last, b""), name)

    def test_sessions_made_at_random(self):
        told = 0
        for number in range(40):
            case = chance.session_of(7, number)
            self.save("p.psac", case.program)
            self.save(case.name, case.given)
            self.save("script", case.script)
            options = [it for name, value in case.options.items() for it in (f"--{name}", str(value))]
            status, lines, errors = support.launched(["explain", "p.psac", case.name, "script", *options], self.folder)
            replies = support.bare(["session", "p.psac", case.name, *options], self.folder, case.script)[1].splitlines()
            commits = [it for it in replies if it.startswith((b"mode=", b"fault ")) or it == b"full"]
            if status == 0:
                told += 1
                self.assertEqual(lines.splitlines()[-1], commits[-1], number)
            else:
                self.assertRegex(errors, b"is empty|no cell has a field|has no commit|ended with status [45]", number)
        self.assertGreaterEqual(told, 30)

    def test_rows_that_come_and_go(self):
        script = b"rows 3\nset 2 0 30\ncommit\nrows 1\nset 0 0 7\ncommit\n"
        told = self.both(GROWING, "1\n2\n", script, "--rows", "4", name="cells.txt")
        self.assertIn(b"edit: rows() was 3, is 1: read by #1\n", told)
        self.assertIn(b"output out was 33, is 7 (by #1)\n1 output is as before\n", told)

    def test_fields(self):
        """Quotes, commas, empty fields, carriage returns and the bytes of a byte order mark stay as they are."""
        for field in (b'a "word", twice', b"", b"x\r", b"\xef\xbb\xbf7", b'"', b" 7", b"caf\xc3\xa9"):
            end = b"\r\n" if field.endswith(b"\r") else b"\n"
            self.both(COPY, "1,2\n", b"commit\nset 0 0 " + field + end + b"commit\n")
            self.both(COPY, "1\n", b"commit\nset 0 0 " + field + end + b"commit\n", name="cells.txt")

    def test_edits_that_are_refused(self):
        script = b"commit\nset 0 0 5\nset 9 0 5\nset 0 0 \xff\nset 0 0\nrows 2\ncommit\nset 0 0 6\nquit\ncommit\n"
        told = self.both(COPY, "1,2\n", script)
        self.assertTrue(told.startswith(b"commit 2, in line 7 of the script:\nline 3: refused range\nline 4: refused utf8\nline 6: refused range\nedit: "), told)

    def test_commits_that_repair_nothing(self):
        self.save_double()
        words = "double.psac", "cells.txt", "script"
        first = b"commit 1, in line 1 of the script:\nthe whole program was run: no record is kept before the first commit\n" + ANEW
        self.assertEqual(self.explained(*words, script=b"commit\n"), first)
        stopped = self.explained(*words, script=b"commit\nset 0 0 x\ncommit\n")
        self.assertEqual(stopped, BEGIN + b"the run didn't end well, so it left no record that could be compared\nfault kind line 3\n")
        again = self.explained(*words, script=b"set 0 0 x\ncommit\nset 0 0 3\ncommit\n")
        why = b"the whole program was run: no record was kept by the commit in line 2, which replied: fault kind line 3\n"
        self.assertEqual(again, b"commit 2, in line 4 of the script:\n" + why + ANEW)
        full = self.explained(*words, "--nodes=1", script=b"commit\n")
        self.assertTrue(full.endswith(b"\nfull\n"), full)
        idle = self.explained(*words, script=b"commit\n\ncommit\n")
        self.assertIn(b"no block ran again\n1 output is as before\nmode=repair visited=0 ", idle)

    def test_tight_caps(self):
        self.save("p.psac", "func main(; out) { read cell(0, 0) as x { new m; write m = x; read m as y { write out = y; } } }")
        self.save("cells.txt", "1\n")
        told = self.explained("p.psac", "cells.txt", "script", "--nodes=4", script=b"commit\nset 0 0 2\ncommit\n")
        self.assertIn(b"the record before it and what a repair makes would together pass a cap\nmode=anew ", told)

    def test_empty_rows(self):
        """Empty rows behind the last field, with the present number of rows in reads, in values and in a text that looks like it."""
        program = """func main(; a, b, c) {
            read rows() as n { write a = n * 10 + rows + cols; }
            read cell(0, 0) as x, cell(3, 1) as y { if y == nil { write b = x; } else { write b = y; } }
            new m; write m = pair(rows(), cell(0, 1)); read m as p { write c = p; }
        }"""
        script = b"rows 4\nset 0 0  c/0/2\ncommit\nset 0 0  c/0/3\ncommit\n"
        told = self.both(program, "1,2\n3,4\n", script, "--rows=4")
        self.assertIn(b'output b was " c/0/2", is " c/0/3" (by #1)\n2 outputs are as before\n', told)
        told = self.both(program, "1,2\n3,4\n", b"rows 4\ncommit\nset 2 0 7\nset 2 1 7\nset 3 0 7\nset 3 1 7\ncommit\n", "--rows=4")
        self.assertIn(b"edit: cell(3, 1) was nil, is 7: read by #1\n", told)
        self.assertIn(b"2 outputs are as before\n", told)

    def test_what_no_input_has(self):
        self.save_double()
        words = "double.psac", "cells.txt", "script"
        empty = b"psac explain: row 1, column 0 is empty after the last commit, and no field of an input is\n"
        script = b"commit\nrows 3\nset 2 0 7\ncommit\n"
        self.explained(*words, "--rows=3", script=script, status=1, errors=empty)
        none = b"psac explain: no cell has a field before the last commit, and no input has columns without rows\n"
        self.save("p.psac", "func main(; out) { read rows() as n { write out = n; } }")
        script = b"rows 0\ncommit\nrows 1\nset 0 0 1\ncommit\n"
        self.explained("p.psac", *words[1:], script=script, status=1, errors=none)
        self.explained(*words, script=b"show\n", status=1, errors=b"psac explain: the script has no commit\n")

    def test_another_work_line(self):
        """A program whose session says another work line than its dumps."""
        self.save_double()
        text = f'#!/bin/sh\n"{support.PROGRAM}" "$@" | sed "s/rerun=1/rerun=2/"\n'
        other = self.save_command("other", text)
        self.save("script", "commit\nset 0 0 5\ncommit\n")
        status, told, _ = support.launched(["explain", "double.psac", "cells.txt", "script"], self.folder, PSAC_PROGRAM=other)
        lines = told.splitlines()
        self.assertEqual(status, 1)
        self.assertTrue(lines[-2].startswith(b"these records differ by another repair than the session's: mode=repair visited=2 rerun=1 "))
        self.assertTrue(lines[-1].startswith(b"mode=repair visited=2 rerun=2 "))

    def test_refusals(self):
        self.save_double()
        self.save("script", "commit\n")
        self.save("cut.psac", "func main(; out) { write out = ; }")
        self.save("ragged.csv", "1,2\n3\n")
        for words, status, output, errors in (
            ("double.psac cells.txt", 2, b"", b"a program, an input and a script, and here are 2 names"),
            ("double.psac cells.txt script more", 2, b"", b"here are 4 names"),
            ("double.psac cells.txt script --nodes 0", 2, b"", b"--nodes takes a number from 1"),
            ("missing.psac cells.txt script", 3, b"", b"missing.psac: No such file"),
            ("cut.psac cells.txt script", 4, b"program line 1 column 32 syntax\n", b"ended with status 4"),
            ("double.psac ragged.csv script", 5, b"input record 2 ragged\n", b"ended with status 5"),
        ):
            got = support.launched(["explain", *words.split()], self.folder)
            self.assertEqual(got[:2], (status, output), words)
            self.assertIn(errors, got[2])

    def test_no_python(self):
        self.save_double()
        got = support.launched(["explain", "double.psac", "cells.txt", "script"], self.folder, PSAC_PYTHON="/missing/python")
        self.assertEqual(got, (1, b"", b"psac: explain needs Python 3.8 or later\n"))
