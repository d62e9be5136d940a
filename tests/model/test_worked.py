"""The model against the worked rows, whose texts were worked out apart from it, with and without repairs and held places."""
import sys
import unittest

import programs
import session

sys.setrecursionlimit(20000)
FIELDS = "visited rerun inside dropped nodes mods links".split()


def work(short):
    """The work line of a short form such as `repair 16 3 0 0 0 0 0`."""
    mode, *counts = short.split()
    return f"mode={mode} " + " ".join(f"{name}={count}" for name, count in zip(FIELDS, counts))


def column(*fields):
    """The file of a column."""
    return "".join(f"{it}\n" for it in fields).encode()


class Row(unittest.TestCase):
    """Rows. In a script's wanted replies, a pair stands for two work lines: with repairs, and where each commit runs anew. A reply
    that begins with `held` or is in `ONLY_HELD` comes with held places alone."""

    def run_session(self, program, given, lines, repairs, holds=True, **options):
        settings = session.Settings(repairs, holds, **options)
        script = "".join(f"{it}\n" for it in lines).encode()
        status, text = session.report("session", program.encode(), *given, settings, script)
        self.assertEqual(status, 0)
        return text.decode()

    def row(self, program, given, *turns, name="cells.txt", **options):
        """Turns are pairs: lines with semicolons between them, and what they reply, line by line."""
        lines = [it for said, _ in turns for it in said.split("; ")]
        for repairs in (True, False):
            wanted = [self.reply(it, repairs) for _, replies in turns for it in replies]
            got = self.run_session(program, (name, given), lines, repairs, **options)
            self.assertEqual(got, "".join(f"{it}\n" for it in wanted), f"with repairs: {repairs}")

    def reply(self, reply, repairs):
        it = reply if isinstance(reply, str) else reply[0 if repairs else 1]
        return work(it) if it.startswith(("repair ", "anew ")) else it

    def once(self, program, given, wanted, status=0, name="cells.txt", **options):
        for repairs in (True, False):
            settings = session.Settings(repairs, repairs, **options)
            got = session.report("once", program if isinstance(program, bytes) else program.encode(), name, given, settings)
            self.assertEqual(got, (status, wanted.encode()))


class Sums(Row):
    FOUR = column(1, 2, 3, 4)
    ANEW = "anew 0 0 7 0 34 6 10"
    BEGIN = ("commit; show; tree", [ANEW, "out = 10", "S=24 P=3 R=7 mods=6 links=10"])

    def test_first(self):
        self.row(programs.SUM, self.FOUR, self.BEGIN)

    def test_one_cell(self):
        self.row(programs.SUM, self.FOUR, self.BEGIN, ("set 0 0 5; commit; show", [("repair 16 3 0 0 0 0 0", self.ANEW), "out = 14"]))

    def test_equal_sum(self):
        turn = ("set 0 0 2; set 1 0 1; commit; show", [("repair 18 3 0 0 0 0 0", self.ANEW), "out = 10"])
        self.row(programs.SUM, self.FOUR, self.BEGIN, turn)

    def test_netted(self):
        self.row(programs.SUM, self.FOUR, self.BEGIN, ("set 0 0 5; set 0 0 1; commit", [("repair 0 0 0 0 0 0 0", self.ANEW)]))

    def test_all_cells(self):
        lines = "set 0 0 10; set 1 0 20; set 2 0 30; set 3 0 40; commit; show"
        self.row(programs.SUM, self.FOUR, self.BEGIN, (lines, [("repair 34 7 0 0 0 0 0", self.ANEW), "out = 100"]))

    def test_nothing_staged(self):
        self.row(programs.SUM, self.FOUR, self.BEGIN, ("commit", [("repair 0 0 0 0 0 0 0", self.ANEW)]))

    def test_before_a_commit(self):
        self.row(programs.SUM, self.FOUR, ("show; tree", ["none", "none"]), ("set 4 0 1", ["refused range"]))
        self.row(programs.SUM, self.FOUR, ("held 5", ["refused empty"]), ("hold 64 out 0", ["refused range"]))

    def test_two_cells(self):
        self.row(programs.SUM, column(1, 2), ("commit; sho", ["anew 0 0 3 0 14 2 4", "refused form"]))
        turn = ("commit; show; tree", ["anew 0 0 3 0 14 2 4", "out = 3", "S=10 P=1 R=3 mods=2 links=4"])
        self.row(programs.SUM, column(1, 2), turn)

    def test_tight_caps(self):
        caps = {"nodes": 34, "mods": 6, "links": 10}
        turns = [("set 0 0 5; commit; show", [("repair 16 3 0 0 0 0 0", self.ANEW), "out = 14"])]
        self.row(programs.SUM, self.FOUR, self.BEGIN, *turns, **caps)
        for sort, number in caps.items():
            turn = ("commit; show; commit; tree", ["full", "none", "full", "none"])
            self.row(programs.SUM, self.FOUR, turn, **{**caps, sort: number - 1})

    def test_present_rows(self):
        one = ("commit; show", ["anew 0 0 4 0 17 2 5", "out = 3"])
        two = ("set 2 0 7; rows 5", ["refused range", "refused range"])
        three = ("rows 3; set 2 0 7; commit; show", [("repair 2 1 5 3 25 4 7", "anew 0 0 6 0 27 4 8"), "out = 10"])
        four = ("rows 2; rows 3; commit", ["fault kind line 14"])
        five = ("rows 1; commit; show", ["anew 0 0 2 0 7 0 2", "out = 1"])
        self.row(programs.PRESENT_ROWS, column(1, 2), one, two, three, four, five, rows=4)
        turns = [("commit; rows 3; commit", ["anew 0 0 3 0 14 2 4", ("repair 0 0 0 0 0 0 0", "anew 0 0 3 0 14 2 4")])]
        self.row(programs.SUM, column(1, 2), *turns, rows=4)


class Blocks(Row):
    def test_handed_out(self):
        one = ("commit; show", ["anew 0 0 3 0 6 2 3", "out = 1"])
        two = ("set 0 0 12; commit; show", [("repair 4 2 1 1 2 1 1", "anew 0 0 3 0 6 2 3"), "out = 1"])
        self.row(programs.HANDED_OUT, column(11), one, two)
        self.row(programs.HANDED_OUT, column(11), one, two, nodes=8)
        anew = ("set 0 0 12; commit", ["anew 0 0 3 0 6 2 3"])
        self.row(programs.HANDED_OUT, column(11), one, anew, nodes=7)
        full = ("commit; set 0 0 12; commit; show", ["full", "full", "none"])
        self.row(programs.HANDED_OUT, column(11), full, nodes=5)

    def test_read_in_read(self):
        one = ("commit; show", ["anew 0 0 2 0 4 0 2", "out = 6"])
        two = ("set 0 0 4; commit; show", [("repair 2 1 1 1 2 0 1", "anew 0 0 2 0 4 0 2"), "out = 8"])
        self.row(programs.READ_IN_READ, column(3), one, two)

    def test_overflow(self):
        one = ("commit; show", ["anew 0 0 1 0 2 0 1", "out = 9223372036854775806"])
        two = ("set 0 0 4611686018427387904; commit; show", ["fault overflow line 3", "none"])
        three = ("set 0 0 1; commit; show", ["anew 0 0 1 0 2 0 1", "out = 2"])
        self.row(programs.DOUBLE, column(4611686018427387903), one, two, three)

    def test_double(self):
        lines = "show; commit; show; set 0 0 5; show; commit; show; quit; show"
        anew = "anew 0 0 1 0 2 0 1"
        wanted = ["none", anew, "out = 42", "out = 42", ("repair 2 1 0 0 0 0 0", anew), "out = 10"]
        self.row(programs.DOUBLE, column(21), (lines, wanted), ("set 1 0 1", []))
        self.row(programs.DOUBLE, column(21), ("set 1 0 1", ["refused range"]))

    def test_faults_on_either_side(self):
        anew = "anew 0 0 2 0 6 0 2"
        turns = [
            ("commit; show", [anew, "a = 10", "b = 5"]),
            ("set 1 0 0; commit", ["fault divzero line 5"]),
            ("set 0 0 0; commit", ["fault divzero line 3"]),
            ("set 0 0 5; set 1 0 5; commit; show", [anew, "a = 2", "b = 2"]),
            ("set 0 0 1; commit", [("repair 4 1 0 0 0 0 0", anew)]),
        ]
        self.row(programs.QUOTIENTS, column(1, 2), *turns)
        self.row(programs.QUOTIENTS, column(0, 1), ("commit", ["full"]), nodes=5)
        self.row(programs.QUOTIENTS, column(0, 1), ("commit", ["fault divzero line 3"]), nodes=6)

    def test_nothing(self):
        self.row(programs.NOTHING, b"", ("commit; show; tree", ["anew 0 0 0 0 0 0 0", "S=0 P=0 R=0 mods=0 links=0"]))
        settings = session.Settings(True, True)
        self.assertEqual(session.report("session", programs.NOTHING.encode(), "empty.txt", b"", settings), (0, b""))

    def test_sales(self):
        given = b'north,120\nsouth,75\n"north",30\n'
        anew = "anew 0 0 5 0 28 4 10"
        one = ("commit; show; tree", [anew, "total = 150", "S=21 P=2 R=5 mods=4 links=10"])
        two = ("set 1 0 north; commit; show", [("repair 17 3 0 0 1 0 0", anew), "total = 225"])
        self.row(programs.SALES, given, one, two, name="sales.csv")

    def test_empty_field(self):
        self.row(programs.ONE_MORE, column(1), ("set 0 0 ; commit", ["fault kind line 3"]))

    def test_odd_lines(self):
        settings = session.Settings(True, True)
        for line, wanted in [(b"\0", b"refused form\n"), (b"set 0 0 \0", b""), (b"set 0 0 \xff", b"refused utf8\n")]:
            got = session.report("session", programs.DOUBLE.encode(), "cells.txt", column(21), settings, line)
            self.assertEqual(got, (0, wanted))


class Depths(Row):
    def test_deepest_calls(self):
        self.once(programs.CALLS, b"", "out = 148\n")
        self.once(programs.CALLS.replace("148", "149"), b"", "fault depth line 4\n")
        text = self.run_session(programs.CALLS, ("empty.txt", b""), ["commit", "tree"], True)
        self.assertIn("\nS=298 ", text)

    def test_deepest_read(self):
        anew = "anew 0 0 1 0 300 0 1"
        one = ("commit; show", [anew, "out = 3"])
        two = ("set 0 0 4; commit; show", [("repair 300 1 0 0 0 0 0", anew), "out = 4"])
        self.row(programs.DEEPEST_READ, column(3), one, two)
        self.once(programs.DEEPEST_READ.replace("148", "149"), column(3), "fault depth line 4\n")

    def test_nested_pairs(self):
        turn = ("commit; show; tree", ["anew 0 0 70 0 422 70 70", "out = 70", "S=282 P=70 R=70 mods=70 links=70"])
        self.row(programs.NESTED_PAIRS, b"", turn)
        self.row(programs.NESTED_PAIRS, b"", ("commit", ["full"]), nodes=421)


class Once(Row):
    def test_programs(self):
        self.once(programs.DOUBLE, column(21), "out = 42\n")
        self.once(programs.DOUBLE, column(4611686018427387904), "fault overflow line 3\n")
        self.once(programs.DOUBLE, b"", "fault range line 2\n")
        self.once(programs.BOTH_FAULT, b"", "fault divzero line 3\n")
        self.once(programs.SECOND_COLUMN, b'1,"a,b"\n2,c\n', 'out = "a,b"\n', name="fields.csv")
        self.once(programs.ONE_MORE, column(9223372036854775808), "fault kind line 3\n")
        self.once(programs.ONE_MORE, column(9223372036854775807), "fault overflow line 3\n")
        self.once(programs.ONE_MORE, column(-1), "out = 0\n")

    def test_refused_by_the_rule(self):
        rows = [
            (programs.RACES, "program line 5 read before write"),
            (programs.BRANCHES, "program line 2 branches differ"),
            (programs.BOTH_SIDES, "program line 2 written in both sides"),
            ("func main(; a) { write a = b; }", "program line 1 unknown name"),
            ("func main(; a) { let a = 1; write a = 1; }", "program line 1 rebound"),
            ("func main(; a) { write a = 1; write a = 2; }", "program line 1 written twice"),
            ("func main(; a) { }", "program line 1 not written"),
            ("func main(; a) { call f(; a); }", "program line 1 unknown function"),
            ("func main(; a) { call f(1; a); } func f(; d) { write d = 1; }", "program line 1 arity"),
            ("func f(; d) { write d = 1; }", "program line 1 no main"),
            ("func main(v; a) { }", "program line 1 no main"),
            ("func main(; a) { write a = a; }", "program line 1 wrong sort"),
        ]
        for program, line in rows:
            self.once(program, b"", f"{line}\n", 4)

    def test_refused_by_the_grammar(self):
        rows = [
            (b"func main(; out) { write out = ; }", "program line 1 column 32 syntax"),
            (b"func main(; out) { write out = " + b"(" * 65, "program line 1 limit 5"),
            (b'func main(; out) { write out = "a\xff"; }', "program line 1 column 32 syntax"),
            (b" " * 65537, "program line 1 limit 1"),
            (b"", "program line 1 column 1 syntax"),
            (b"func main(;) { }\n", None),
            (b"func main(;) {\n", "program line 2 column 1 syntax"),
        ]
        for program, line in rows:
            self.once(program, b"", f"{line}\n" if line else "", 4 if line else 0)

    def test_inputs(self):
        self.once(programs.SECOND_COLUMN, b"1,2\n3,4\n5\n", "input record 3 ragged\n", 5, "fields.csv")
        self.once(programs.DOUBLE, b"a\n\xff", "input record 2 not utf-8\n", 5)
        self.once(programs.DOUBLE, b"1\n" * 65537, "input record 65537 too many cells\n", 5)
        fields = "".join(f"a{it}\n" for it in range(1, 65538)).encode()
        self.once(programs.DOUBLE, fields, "input record 65537 too many cells\n", 5, "fields.csv")
        own = 'func main(; out) { write out = "z"; }'
        self.once(own, fields[: -len("a65537\n")], "input record 65536 too many texts\n", 5, "fields.csv")


class Held(Row):
    def test_stale(self):
        begin = ("commit; hold 0 out 0; hold 1 ref 0; held 1", ["anew 0 0 2 0 4 1 2", "held 1 = 7"])
        two = ("set 1 0 9; commit; held 1", ["repair 3 1 0 0 0 0 0", "held 1 = 7"])
        three = ("set 0 0 5; commit; held 1; hold 2 ref 0; held 2", ["repair 2 1 0 0 0 1 0", "stale", "held 2 = 5"])
        four = ("set 0 0 6; commit; held 1; held 2; held 0", ["repair 2 1 0 0 0 1 0", "stale", "stale", "held 0 = ref"])
        turns = [begin, two, three, four]
        got = self.run_session(programs.REFERENCES, ("cells.txt", column(7, 8)), self.lines(turns), True)
        self.assertEqual(got, "".join(f"{self.reply(it, True)}\n" for _, replies in turns for it in replies))

    def lines(self, turns):
        return [it for said, _ in turns for it in said.split("; ")]

    def test_anew_turns_stale(self):
        anew = "anew 0 0 2 0 4 1 2"
        turns = [("commit; hold 0 out 0; hold 1 ref 0; held 1", [anew, "held 1 = 7"])]
        turns += [("set 1 0 9; commit; held 1; held 0", [anew, "stale", "held 0 = ref"])]
        got = self.run_session(programs.REFERENCES, ("cells.txt", column(7, 8)), self.lines(turns), False)
        self.assertEqual(got, "".join(f"{self.reply(it, False)}\n" for _, replies in turns for it in replies))

    def test_pairs(self):
        lines = "commit; hold 0 out 0; hold 1 fst 0; hold 2 snd 0; hold 3 ref 0; hold 3 fst 9; held 0; held 1; held 2"
        replies = ["anew 0 0 0 0 0 1 0", "refused kind", "refused empty", "held 0 = pair", "held 1 = 5", "held 2 = 7"]
        again = ("set 0 0 8; commit; held 2", [("repair 0 0 0 0 0 0 0", "anew 0 0 0 0 0 1 0"), "held 2 = 8"])
        self.row(programs.PAIR, column(7), (lines, replies), again)

    def test_no_commands_yet(self):
        lines = ["hold 0 out 0", "held 0"]
        got = self.run_session(programs.DOUBLE, ("cells.txt", column(21)), lines, False, False)
        self.assertEqual(got, "refused form\nrefused form\n")


class Bench(Row):
    def test_four_cells(self):
        wanted = "cells=4 batches=1 repaired=1 anew=1 failed=0 visited=34 rerun=7 inside=7 dropped=0\nout = 1042\n"
        got = session.bench(programs.SUM.encode(), 4, 1, session.Settings(True, True))
        self.assertEqual(got.decode(), wanted)

    def test_sizes(self):
        for cells in (2, 3, 64, 1000):
            its = session.opened(programs.SUM.encode(), "cells.txt", column(*range(cells)), session.Settings(True, True))
            wanted = work(f"anew 0 0 {2 * cells - 1} 0 {10 * cells - 6} {2 * cells - 2} {3 * cells - 2}")
            self.assertEqual(its.commit().decode(), f"{wanted}\n")


if __name__ == "__main__":
    unittest.main()
