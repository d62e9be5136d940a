"""The model's dumps against the stored ones, which were written apart from it, and what is found of other texts."""
import sys
import unittest

import dump
import programs
import session
from test_examples import content

sys.setrecursionlimit(20000)
SETTINGS = session.Settings(True, False)
DOUBLE = b"psac record 1\nS\nR 0 out=&o/0 | c/0/0=21\nW o/0 42\nE\nE\n"


def run(mode, program, given, text=b"", name="cells.txt"):
    its = program if isinstance(program, bytes) else program.encode()
    return dump.report(mode, its, name, given, SETTINGS, text)


class Dumps(unittest.TestCase):
    def test_example(self):
        program = content("sales", "program.psac")
        for given, wanted in (("input.csv", "before.dump"), ("after.csv", "after.dump")):
            got = run("dump", program, content("sales", given), name=given)
            self.assertEqual(got, (0, content("sales", wanted)), given)

    def test_names_and_values(self):
        program = 'func main(; a, b) { write a = "x\\n"; new m; write m = pair(rows(), a); read m as p { write b = fst(p); } }'
        wanted = b'psac record 1\nW o/0 "x\\n"\nA\nW m/3 &r,o/0\nS\nR 0 a=&o/0 b=&o/1 m=&m/3 | m/3=&r,o/0\nW o/1 &r\nE\nE\n'
        self.assertEqual(run("dump", program, b""), (0, wanted))

    def test_no_record(self):
        self.assertEqual(run("dump", programs.DOUBLE, b""), (0, b"fault range line 2\n"))
        self.assertEqual(run("dump", "func main(; out) { }", b"")[0], 4)
        self.assertEqual(run("dump", "func main(;) { }", b"1,2\n3\n", name="cells.csv"), (5, b"input record 2 ragged\n"))

    def test_verdicts(self):
        for text, wanted in ((DOUBLE, b"yes\n"), (DOUBLE.replace(b"42", b"43"), b"no 47\n"), (DOUBLE[:-1], b"no 52\n"), (DOUBLE + b"\n", b"no 53\n")):
            self.assertEqual(run("certify", programs.DOUBLE, b"21\n", text), (0, wanted))
        self.assertEqual(run("certify", programs.DOUBLE, b"", DOUBLE), (0, b"fault range line 2\n"))


if __name__ == "__main__":
    unittest.main()
