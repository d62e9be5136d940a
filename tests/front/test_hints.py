"""Hints: that they never fail, never leave the terminal's lines, and say only what is so."""
import os
import random

import support
import test_agreement
from front import commands, fault_hints, flow, grammar, grid, hints, input_hints, program_hints, screen, words
from front.report import Report
from front.source import Source

GRADES = """func main(; mean) {
  new total;
  call sum(0, rows; total);
  read total as t { write mean = t / rows; }
}
func sum(low, high; d) {
  if high - low <= 1 {
    read cell(low, 1) as x { write d = x; }
  } else {
    let middle = (low + high) / 2;
    new first;
    new second;
    par { call sum(low, middle; first); } { call sum(middle, high; second); }
    read first as x, second as y { write d = x + y; }
  }
}
"""
FLOW = b"""func main(; a) {
  new p; new q;
  call f(cell(2, 1), 3; p);
  read p as r { read r as v, cell(0, 0) as w {
    write a = v + w;
  } }
  read p as z { write q = 1; }
}
func f(c, n; d) {
  write d = c;
}
"""


class Case(support.Case):
    def source(self, text, name="it.psac"):
        self.save(name, text)
        return Source(f"{self.folder}/{name}")

    def harmless(self, lines):
        """Holds hints to their form, and gives them as they are written."""
        said = hints.lines_of(lines)
        for line in said.split(b"\n")[:-1]:
            self.assertTrue(line.startswith(b"hint:"))
            self.assertTrue(line.decode().isprintable(), line)
        return said.decode()

    def hints_on(self, *given):
        """The program's output for these words, its status, and the hints on it."""
        status, output, _ = support.bare(given, self.folder)
        report = Report()
        report.add(output)
        return output, status, hints.after(given, report.noted, status)


class Programs(Case):
    def test_every_refusal_has_a_hint(self):
        # The hints on changed programs: each agrees with the program's own place, so none says that the file was changed.
        chance, last = random.Random(5), set()
        self.save("i.csv", "1,2\n")
        self.go_into(self.folder)
        for _ in range(300):
            text = test_agreement.mutated(chance, chance.choice(test_agreement.PROGRAMS).encode())
            self.save("p.psac", text)
            output, status, lines = self.hints_on("once", "p.psac", "i.csv")
            said = self.harmless(lines)
            self.assertEqual(bool(said), status != 0 or output.startswith(b"fault"), (text, output, said))
            self.assertNotIn("changed since", said, text)
            last.add(said.split("\n")[-2] if said else "")
        self.assertGreater(len(last), 30)

    def test_faults_name_cells_that_matter(self):
        # Over grids with one bad cell, the hint names it wherever the program stops.
        self.save("p.psac", GRADES)
        self.go_into(self.folder)
        for rows in (1, 2, 5, 8):
            for bad in range(rows):
                self.save("i.csv", "".join(f"n{row},{'x' if row == bad else row}\n" for row in range(rows)))
                output, _, said = self.hints_on("once", "p.psac", "i.csv")
                self.assertTrue(output.startswith(b"fault kind"), output)
                self.assertIn(f'  row {bad}, column 1: "x"', said)
                self.assertEqual(sum(it.startswith("  row ") for it in said), 1)

    def test_no_more_than_three_cells(self):
        cells = grid.Grid(grid.read("i.csv", b"a,x\n" * 10))
        said = fault_hints.fault(self.source(GRADES), "kind", 14, cells)
        self.assertEqual([it for it in said if it.startswith("  row")], [f'  row {row}, column 1: "x"' for row in range(3)])
        self.assertIn("  and 7 more", said)

    def test_what_a_field_is(self):
        for field, why in (
            (b"95.5", '"95.5", a fraction, and numbers are whole'),
            (b"1,234", '"1,234", a number with a comma, and numbers are whole'),
            (b" 7", '" 7", a number with blanks around it'),
            (b"007", '"007", a number with zeros before it'),
            (b"+7", '"+7", a number with a plus before it'),
            (b"9" * 19, f'"{"9" * 19}", a number of more than 64 bits'),
            (b"1.2.3", '"1.2.3"'),
            (b" ", '" ", blanks'),
            (b"", '"", the empty text'),
            (b"north", '"north"'),
            (b"7", "7"),
            (None, "nil, an empty cell"),
        ):
            self.assertEqual(fault_hints.content(field), why)

    def test_without_cells(self):
        # Where the input can't be looked at again, what the program says by itself is told still.
        source = self.source('func main(; a) { write a = "x" + 1; }')
        said = fault_hints.fault(source, "kind", 1, None)
        self.assertIn('"x" stands where a number is asked for', said)
        for kind in ("range", "divzero", "overflow", "depth"):
            self.assertEqual(said[:2], fault_hints.fault(source, kind, 1, None)[:2])

    def test_files_that_were_changed(self):
        for text in ("func main(;) { }", "func main(; a) { write b = 1; }", "", "# nothing"):
            source = self.source(text)
            for said in (
                program_hints.syntax(source, 1, 60),
                program_hints.rule(source, 1, "arity"),
                fault_hints.fault(source, "kind", 7, None),
                input_hints.refused(source, 9, "ragged"),
            ):
                self.assertEqual(said[-1], program_hints.CHANGED, (text, said))

    def test_flow(self):
        functions = grammar.functions_of(FLOW)
        asked = {operand.text: value.cells for _, operand, value in flow.Flow(functions).asked_at(5)}
        self.assertEqual(asked, {"v": {(2, 1)}, "w": {(0, 0)}})


class Terminals(Case):
    def test_they_are_left_alone(self):
        # Bytes that would move the cursor or change colours are shown as dots.
        source = self.source(b'func main(; a) {\n  write a = "\x1b[31m\x07" + ;\n}\n')
        self.assertNotIn("\x1b", self.harmless(program_hints.syntax(source, 2, 13)))
        cells = grid.Grid(grid.read("i.csv", b"a,\x1b[31m\xff\x9b5\n"))
        self.assertNotIn("\x1b", self.harmless(fault_hints.fault(self.source(GRADES), "kind", 14, cells)))
        with self.assertRaises(words.Wrong) as told:
            words.read(["once", "\x1b[31m"])
        self.harmless(hints.usage(str(told.exception)))
        self.harmless(hints.files(words.read(["once", "\x1b[31m", "a\nb"])))
        os.mkdir(f"{self.folder}/\x1b[31m")
        self.go_into(f"{self.folder}/\x1b[31m")
        said = self.harmless(hints.files(words.read(["once", "none", "neither"])))
        self.assertIn("names are taken from the folder", said)
        self.assertNotIn("\x1b", commands.why_refused("\x1b[31m"))
        self.assertNotIn("\x1b", commands.help_on(["\x1b[31m"]))

    def test_carets(self):
        for line, column, mark in (
            (b"  write a = -5;", 13, "-"),
            ('\twrite b = "é" - ;'.encode(), 19, ";"),
            (b"x" * 300 + b"@" + b"y" * 300, 301, "@"),
            ("# 漢字 @".encode(), 10, "@"),
        ):
            shown, caret = screen.with_caret(line, column)
            before = next(at for at in range(len(shown) + 1) if screen.width(shown[:at]) == len(caret) - 1)
            self.assertEqual(shown[before], mark, line)
            self.assertLess(screen.width(shown), 90)


class Reports(Case):
    TEXT = (
        b"mode=anew visited=0\nout = 1\nfault kind line 3\nfault kind line 3\nfull\nrefused form\nmode=anew\n"
        b'fault range line 9\nmode = 7\nfull = 8\nfault = "fault kind line 3"\n'
    )

    def test_lines_of_note(self):
        for size in (1, 2, 7, 1000):
            report = Report()
            for at in range(0, len(self.TEXT), size):
                report.add(self.TEXT[at : at + size])
            self.assertEqual(report.noted, ["fault kind line 3", "full", "refused form"])
            self.assertEqual(report.commits, 6)

    def test_long_lines(self):
        for size in (1000, 100001, 500000):
            text = b'a = "' + b"x" * 100000 + b"\nfull\n" + b"full" * 100 + b"\nmode=" + b"y" * 150 + b"\n"
            report = Report()
            for at in range(0, len(text), size):
                report.add(text[at : at + size])
            self.assertEqual((report.noted, report.commits), (["full"], 2))


class Commands(Case):
    def test_why_refused(self):
        for line, part in (
            ("comit", "there is commit"),
            ("COMMIT", "there is commit"),
            ("autosho", "there is autoshow"),
            ("commit ", "a space too many"),
            ("set 0 0", "a space"),
            ("set  0 0 5", "one space between"),
            ("set -1 0 5", "no sign"),
            ("rows x", "the form is: rows N"),
            ("hold 0 in 0", "the form is: hold H out I"),
            ("held", "the form is: held H"),
            ("   ", "a line of blanks"),
        ):
            self.assertIn(part, commands.why_refused(line), line)

    def test_candidates(self):
        self.assertEqual(commands.candidates([], "s"), ["set ", "show"])
        self.assertEqual(commands.candidates([], "commit"), ["commit"])
        self.assertEqual(commands.candidates([], "t"), ["tree"])
        self.assertEqual(commands.candidates([], "x"), [])
        self.assertEqual(commands.candidates(["help"], "c"), ["commit"])
        self.assertEqual(commands.candidates(["autoshow"], ""), ["on", "off"])
        self.assertEqual(commands.candidates(["commit"], ""), [])

    def test_help_is_narrow(self):
        for name in ([], ["help"], *([it] for it in {**commands.COMMANDS, **commands.OWN})):
            for line in commands.help_on(name).split("\n"):
                self.assertLessEqual(len(line), 80, line)


class Files(Case):
    def test_missing_files(self):
        self.go_into(self.folder)
        self.save("total.psac", GRADES)
        os.mkdir("folder")
        with open("large", "wb") as file:
            file.truncate(16777217)
        too_large = "the input large could not be loaded: it has 16,777,217 bytes, and 16,777,216 are the most"
        for program, given, parts in (
            ("totl.psac", "large", ["the program totl.psac could not be loaded: there is no such file", too_large]),
            ("totl.psac", "total.psac", ["a similar name is there: total.psac"]),
            ("folder", "total.psac", ["the program folder could not be loaded: it is a folder"]),
            ("total.psac", "no/where.csv", ["there is no folder no here"]),
            ("", "total.psac", ["the program  could not be loaded: its name is empty"]),
        ):
            said = hints.files(words.read(["once", program, given]))
            for part in parts:
                self.assertIn(part, said)
            self.assertEqual(support.bare(["once", program, given], self.folder)[0], 3)
