import unittest

from common import cases, data, run, sum_dump, tool
from psac_program import Program
from psac_record import Record

explain = tool("explain")
STORED = [                          # what the tool is given, and the stored file of what it says
    (["--program", "sum.psac", "sum-4.dump", "sum-4-one.dump"], "sum-4-one.said"),
    (["sum-4.dump", "sum-4-one.dump"], "sum-4-one-bare.said"),
    (["--program", "sum.psac", "sum-4.dump", "sum-4-stop.dump"], "sum-4-stop.said"),
    (["--program", "refs.psac", "refs.dump", "refs-anew.dump"], "refs.said"),
    (["--program", "sales.psac", "--edits", "sales.script", "sales.dump", "sales-new.dump"], "sales.said"),
    (["--program", "deep.psac", "deep.dump", "deep-new.dump"], "deep.said"),
    (["--most", "2", "--program", "sum.psac", "sum-100.dump", "sum-100-three.dump"], "sum-100-most.said"),
]


class Saying(unittest.TestCase):
    def test_stored(self):
        for words, name in STORED:
            self.assertEqual(run(["explain"] + words), (data(name), b"", 0), name)

    def test_cases(self):
        """Each changed read of random programs has a reason, and the last line is the work line."""
        for name, program, before, after, work in cases():
            story = explain.Story(Record(before), Record(after), Program(program))
            lines = list(story.lines(1000))
            self.assertEqual(lines[-1], work.decode().strip(), name)
            self.assertNotIn("no block that ran again wrote", " ".join(lines), name)
            self.assertEqual(sum(x.endswith(" ran again:") for x in lines), len(story.blocks), name)

    def test_same(self):
        self.assertEqual(run(["explain", "sum-4.dump", "sum-4.dump"])[0],
                         b"no block ran again\n1 output is as before\n"
                         b"mode=repair visited=0 rerun=0 inside=0 dropped=0 nodes=0 mods=0 links=0\n")

    def test_edits(self):
        edits = explain.read_edits(b'set 0 0 1\nset 0 0 2\r\ncommit\nrows 03\nset 1 0 a"b\ncommit\nset 2 0 5\nset 9 9\nshow\n')
        self.assertEqual(edits, {b"c/0/0": b"2", b"r": b"3", b"c/1/0": b'"a\\"b"'})
        self.assertEqual(explain.read_edits(b"set 1 0 007"), {b"c/1/0": b'"007"'})
        old, new = Record(data("sum-4.dump"), "a"), Record(data("sum-4-one.dump"), "b")
        said = list(explain.Story(old, new, None, {b"c/2/0": b"5", b"c/0/0": b"11", b"c/7/0": b"1", b"c/1/0": b"9"}).edited())
        self.assertEqual(said, ["edit: cell(2, 0) was 85, is 5: read by #1", "edit: cell(0, 0) is 11 as before: nothing comes of it",
                                "edit: cell(7, 0) is 1: no block reads it", "edit: cell(1, 0) is 9 by the script, but 48 in b"])

    def test_refused(self):
        for words, why in ((["sum-4.dump", "sum-100.dump"], b"psac-explain: sum-4.dump line 16 and sum-100.dump line 16 differ"),
                           (["sum-4.dump", "sum.psac"], b"psac-explain: sum.psac: no record"),
                           (["sum-4.dump", "nowhere.dump"], b"psac-explain: [Errno 2]"),
                           (["--program", "sales.psac", "sum-4.dump", "sum-4-one.dump"], b"it is another program")):
            out, err, status = run(["explain"] + words)
            self.assertEqual((out, status), (b"", 1))
            self.assertIn(why, err)

    def test_many(self):
        """Thousands of blocks in a record of 20,000 nodes."""
        values = [i % 1000 for i in range(2048)]
        old, new = Record(sum_dump(values)), Record(sum_dump([v + i % 2 for i, v in enumerate(values)]))
        lines = list(explain.Story(old, new, Program(data("sum.psac"))).lines(10))
        self.assertIn("... and 3061 more blocks", lines)
        self.assertEqual(lines[-1], "mode=repair visited=16378 rerun=3071 inside=0 dropped=0 nodes=0 mods=0 links=0")


if __name__ == "__main__":
    unittest.main()
