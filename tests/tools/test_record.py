import unittest

from common import cases, data, sum_dump, tool
from psac_program import BadProgram, Program, place
from psac_record import A, E, P, R, S, W, Apart, BadRecord, Changes, Record, names_in, plain_value, shown_text
from runner import Stopped, dump_of

DOUBLE = b"psac record 1\nS\nR 0 out=&o/0 | c/0/0=21\nW o/0 42\nE\nE\n"


class Reading(unittest.TestCase):
    def test_double(self):
        r = Record(DOUBLE)
        self.assertEqual(r.kind, bytes([S, R, W, E, E]))
        self.assertEqual(list(r.up), [-1, 0, 1, 2, 0])
        self.assertEqual(list(r.end), [5, 4, 4, 4, 5])
        self.assertEqual(r.block(1).env, [("out", b"&o/0")])
        self.assertEqual(r.block(1).reads, [(b"c/0/0", b"21")])
        self.assertEqual(r.write(2), (b"o/0", b"42"))

    def test_empty(self):
        self.assertEqual(Record(b"psac record 1\nE\n").kind, bytes([E]))

    def test_refused(self):
        for text, why in (
                (b"", "no record"), (b"fault kind line 3\n", "begins with 'fault kind line 3'"), (b"full\n", "no record"),
                (b"psac record 1\n", "line 2: the record ends too early"), (DOUBLE[:-1], "line 6: the last line has no end"),
                (DOUBLE[:-2], "line 6: the record ends too early"), (DOUBLE + b"\n", "line 7: the record ended above"),
                (DOUBLE + b"E\n", "line 7: the record ended"), (b"psac record 1\nX\n", "line 2: no part"),
                (b"psac record 1\nEE\n", "line 2: no part"), (b"psac record 1\nW\nE\n", "line 2: no part"),
                (b"psac record 1\nP\nE\nE\n", "line 2: a P or R stands behind its S")):
            with self.assertRaisesRegex(BadRecord, why):
                Record(text)
        for line in (b"R 0 | ", b"R x | r=1", b"R 0 a=1", b"R 0 a=nul | r=1", b'R 0 a="" b | r=1', b'R 0 | r="'):
            with self.assertRaisesRegex(BadRecord, "line 3: no line of an R"):
                Record(DOUBLE.replace(b"R 0 out=&o/0 | c/0/0=21", line)).block(1)
        for line in (b"W o/0", b"W x 1", b"W o/0 1 ", b"W m/4 1"):
            with self.assertRaisesRegex(BadRecord, "line 4: no line of a W"):
                Record(DOUBLE.replace(b"W o/0 42", line)).write(2)

    def test_values(self):
        for v in (b"nil", b"true", b"-9223372036854775808", b'""', b'"a | b=&c \\" \\\\"', b'"\\x00\\n"', '"\u00e9"'.encode(), b'"\xff"',
                  b"&m/", b"&m/0123,r", b"&c/1/2,o/3"):
            r = Record(b"psac record 1\nS\nR 7 x=" + v + b" | r=" + v + b" m/0=" + v + b"\nW o/0 " + v + b"\nE\nE\n")
            self.assertEqual(r.block(1).env, [("x", v)])
            self.assertEqual(r.block(1).reads, [(b"r", v), (b"m/0", v)])
            self.assertEqual(r.write(2)[1], v)
        self.assertEqual(names_in(b"&c/1/2,o/3"), [b"c/1/2", b"o/3"])
        self.assertEqual(names_in(b'"&x"'), [])
        self.assertEqual(shown_text(b'a"\\\n\x7f\xc3\xa9'), b'"a\\"\\\\\\n\\x7f\xc3\xa9"')
        self.assertEqual(len(plain_value(b'"' + b"x" * 100 + b'"', 30)), 30)

    def test_paths(self):
        r = Record(data("sum-100.dump"))
        for i in range(0, len(r.kind), 7):
            self.assertEqual(list(r.along(r.turns(i)))[-1], i)
        for i in r.all(R):
            for name, _ in r.block(i).reads:
                if name[:1] == b"m":
                    self.assertEqual((r.kind[r.maker(name)], b"m/" + r.turns(r.maker(name))), (A, name))

    def test_sums(self):
        """The records that these tests make are the stored ones."""
        for name, n in (("sum-4.dump", 4), ("sum-100.dump", 100)):
            values = [11, 48, 85, 122] if n == 4 else [(i * 37 + 11) % 1000 for i in range(n)]
            self.assertEqual(sum_dump(values), data(name))
            self.assertEqual(dump_of(data("sum.psac"), [[b"%d" % v] for v in values]), data(name))

    def test_runner(self):
        """The runner of these tests gives the stored dumps."""
        edits = tool("edits")
        for name in ("sales", "sales-new"):
            rows = edits.load(name + ".csv", data(name + ".csv"))
            self.assertEqual(dump_of(data("sales.psac"), rows), data(name + ".dump"))
        self.assertEqual(dump_of(data("deep.psac"), [[b"5"]]), data("deep.dump"))
        self.assertEqual(dump_of(b"func main(; out) {\n  read cell(0, 0) as x {\n    write out = x * 2;\n  }\n}\n", [[b"21"]]), DOUBLE)
        self.assertEqual(dump_of(b"func main(;) { }", []), b"psac record 1\nE\n")
        with self.assertRaises(Stopped):
            dump_of(b"func main(; a) {\n write a = 1 / 0;\n}", [])

    def test_deep(self):
        n = 300000
        r = Record(b"psac record 1\n" + b"S\n" * n + b"E\n" * (n + 1))
        self.assertEqual(r.end[0], 2 * n + 1)
        self.assertEqual(len(r.turns(n)), n)


class Changing(unittest.TestCase):
    def test_cases(self):
        """The counts are those of the work lines, for 200 repairs of random programs."""
        n = 0
        for name, _, before, after, work in cases():
            self.assertEqual(Changes(Record(before), Record(after)).work_line(), work.decode().strip(), name)
            n += 1
        self.assertEqual(n, 200)

    def test_made_anew(self):
        """A read of an equal reference differs where its modifiable was made anew."""
        c = Changes(Record(data("refs.dump")), Record(data("refs-anew.dump")))
        self.assertEqual([places for _, _, places in c.again], [[0], [0]])
        self.assertEqual(c.made_by(b"m/302"), 0)
        self.assertIsNone(c.made_by(b"m/"))
        self.assertEqual(c.work_line(), "mode=repair visited=4 rerun=2 inside=1 dropped=1 nodes=2 mods=1 links=1")

    def test_apart(self):
        a = Record(data("sum-4.dump"), "a")
        for other in (Record(data("sum-100.dump"), "b"), Record(data("refs.dump"), "b"),
                      Record(data("sum-4.dump").replace(b"W o/0 266", b"W o/0 267"), "b"),
                      Record(data("sum-4.dump").replace(b"lo=3", b"lo=4"), "b")):
            with self.assertRaisesRegex(Apart, "a line [0-9]+ and b line [0-9]+ differ"):
                Changes(a, other)


class Placing(unittest.TestCase):
    def test_sum(self):
        r = Record(data("sum-4.dump"))
        spots = place(Program(data("sum.psac")), r, range(len(r.kind)))
        at = {(r.kind[i], s.statement.kind, s.statement.line) for i, s in spots.items()}
        self.assertEqual(at, {(S, "call", 2), (S, "if", 5), (A, "new", 9), (A, "new", 10), (S, "par", 11), (P, "par", 11),
                              (S, "call", 11), (S, "read", 6), (R, "read", 6), (W, "write", 6), (S, "read", 12), (R, "read", 12),
                              (W, "write", 12)})
        leaf = next(r.all(R))
        self.assertEqual(spots[leaf].call_path(), "main:2 > sum:11 (2 times) > sum")

    def test_cases(self):
        """Nearly all parts of random programs are placed, and each at a statement of its sort."""
        sorts = {A: ["new"], W: ["write"], P: ["par"], R: ["read"], S: ["if", "call", "par", "read"]}
        placed = missing = 0
        for name, program, _, after, _ in cases():
            r = Record(after)
            spots = place(Program(program), r, range(len(r.kind)))
            for i, k in enumerate(r.kind):
                if k != E:
                    placed += i in spots
                    missing += i not in spots
                    if i in spots:
                        self.assertIn(spots[i].statement.kind, sorts[k])
                    if k == R:
                        self.assertEqual(spots[i].statement.block, r.block(i).number)
        self.assertLess(missing * 1000, placed)

    def test_another_program(self):
        for program in ("refs.psac", "sales.psac"):
            with self.assertRaises(BadProgram):
                r = Record(data("sum-4.dump"))
                place(Program(data(program)), r, range(len(r.kind)))
        text = data("sum.psac").replace(b"x + y", b"x - y")
        with self.assertRaisesRegex(BadProgram, "line 12 writes something else"):
            place(Program(text), r, range(len(r.kind)))

    def test_no_program(self):
        for text in (b"", b"x", b"func main(; a) { write a = 1 }", b"func f(;) { }", b"func main(;) { while }", b"func main(;) {", b"?"):
            with self.assertRaises(BadProgram):
                Program(text)

    def test_unknown_branch(self):
        """Where the branch of an `if` can't be told, the blocks below are placed all the same."""
        program = Program(b"func main(; out) {\n if rows == 1 { call f(; out); }\n else { call g(; out); }\n}\n"
                          b"func f(; d) { call h(; d); }\nfunc g(; d) { call h(; d); }\n"
                          b"func h(; d) {\n read cell(0, 0) as x { write d = x; }\n}\n")
        r = Record(b"psac record 1\nS\nS\nS\nS\nR 0 d=&o/0 | c/0/0=21\nW o/0 21\nE\nE\nE\nE\nE\n")
        spots = place(program, r, range(len(r.kind)))
        self.assertEqual([spots[i].statement.line for i in sorted(spots)], [2, 8, 8])
        self.assertEqual(spots[4].call_path(), "..:? > h")
