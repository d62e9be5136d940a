import os
import re
import unittest
from bisect import bisect_left, bisect_right
import xml.etree.ElementTree as ElementTree

from common import PICTURES, cases, data, run, sum_dump, tool
from psac_program import Program
from psac_record import NODES, R, Record

record_svg = tool("record-svg")
STORED = [                          # what the tool is given, and the stored picture
    (["--program", "sum.psac", "--against", "sum-4.dump", "sum-4-one.dump"], "sum-4-one.svg"),
    (["sum-4.dump"], "sum-4-bare.svg"),
    (["--depth", "12", "--program", "sum.psac", "--against", "sum-100.dump", "sum-100-three.dump"], "sum-100-folded.svg"),
    (["--program", "sum.psac", "--part", "101", "sum-100.dump"], "sum-100-part.svg"),
    (["--program", "refs.psac", "--against", "refs.dump", "refs-anew.dump"], "refs.svg"),
    (["--program", "chain.psac", "chain.dump"], "chain.svg"),
]


def drawn(dump, program=None, old=None, depth=None):
    return record_svg.Picture(Record(dump), Program(program) if program else None, Record(old) if old else None, depth)


class Drawing(unittest.TestCase):
    def check(self, picture):
        """The picture is XML, no two shapes of a row overlap, each node is drawn once or folded once, edges end at shapes."""
        text = picture.svg("a <name> & more")
        root = ElementTree.fromstring(text)
        width, height = float(root.get("width")), float(root.get("height"))
        for e in root.iter("{http://www.w3.org/2000/svg}text"):
            self.assertLess(float(e.get("x")), width)
            self.assertLess(float(e.get("y")), height)
        self.check_arrows(picture, width, float(re.search(r'<g transform="translate\(([0-9.]+) 0\)"', text)[1]))
        rows = {}
        for s in picture.shapes:
            self.assertGreaterEqual(s.x - s.own / 2, -0.01)
            rows.setdefault(s.row, []).append((s.x - s.own / 2, s.x + s.own / 2))
        for row in rows.values():
            row.sort()
            for a, b in zip(row, row[1:]):
                self.assertLessEqual(a[1] + 7, b[0])
        kind, end = picture.record.kind, picture.record.end
        folded = sum(kind.count(k, i, end[i]) for i in picture.folds for k in NODES)
        self.assertEqual(picture.count + folded, sum(kind.count(k, picture.start, end[picture.start]) for k in NODES))
        reads, cells, _ = picture.sources()
        self.assertEqual(len(reads), sum(len(b.reads) for b in picture.blocks.values()))
        boxes = sorted((c[4], c[0] - c[1] / 2, c[0] + c[1] / 2) for c in cells.values())
        for a, b in zip(boxes, boxes[1:]):
            self.assertTrue(a[0] != b[0] or a[2] <= b[1] + 0.01, (a, b))
        return text

    def check_arrows(self, picture, width, shift):
        """Each arrow stands within the picture, along a row only between two rows, and through a row only between its shapes."""
        reads, cells, cell_rows = picture.sources()
        routes, arrows = picture.routes(reads, cells, cell_rows)
        heights, boxes = picture.heights(routes, 0, cell_rows), picture.boxes(cells, cell_rows)
        self.assertEqual(len(arrows), len(set(reads)))
        for number, source, s, changed, is_below in arrows:
            points = routes.points(number, *picture.ends(source, s, cells, is_below, heights))
            for (ax, ay), (bx, by) in zip(points, points[1:]):
                self.assertTrue(0 < ax + shift < width and (abs(ax - bx) < 0.06 or ay == by), (points, shift, width))
                low, high = sorted((ay, by))
                for row in range(bisect_left(heights, low - 18), bisect_right(heights, high + 11)):
                    if row == len(boxes):
                        continue
                    if ay == by:
                        self.assertFalse(heights[row] - 11 < ay < heights[row] + (18 if row < picture.rows else 10) and ax != bx, "along a row")
                    elif low < heights[row] < high:
                        k = bisect_left(boxes[row], (ax,))
                        for left, right in boxes[row][max(k - 1, 0):k + 1]:
                            self.assertFalse(left - 1 < ax < right + 1, "through a shape")

    def test_stored(self):
        for words, name in STORED:
            with open(os.path.join(PICTURES, name), "rb") as f:
                self.assertEqual(run(["record-svg"] + words), (f.read(), b"", 0), name)

    def test_cases(self):
        for n, (name, program, before, after, work) in enumerate(cases()):
            if n % 3 == 0:
                self.check(drawn(after))
            elif n % 3 == 1:
                self.check(drawn(after, program, None, n % 7))
            else:
                picture = drawn(after, program, before)
                self.check(picture)
                again = sum(s.kind == R and picture.state[s.part] == "again" for s in picture.shapes)
                self.assertIn(b" rerun=%d " % again, work)

    def test_titles(self):
        text = self.check(drawn(data("sum-4-one.dump"), data("sum.psac"), data("sum-4.dump")))
        self.assertIn("R, block 1 at line 12 (main:2 &gt; sum)\nRAN AGAIN: m2 [m/003] was 207, is 127\n"
                      "reads x from m1 [m/00] = 59\nreads y from m2 [m/003] = 127\nwith lo = 0\nwith hi = 4\n", text)

    def test_small(self):
        for dump in (b"psac record 1\nE\n", b"psac record 1\nS\nE\nE\n", b'psac record 1\nW o/0 "<&>"\nE\n',
                     b"psac record 1\nS\nP\nE\nE\nE\n", b"psac record 1\nS\nR 0 | r=3\nE\nE\n"):
            self.check(drawn(dump))
            self.check(drawn(dump, depth=0))

    def test_folded(self):
        """20,470 nodes are folded to about a thousand, and what ran again stays unfolded."""
        values = [i % 1000 for i in range(2048)]
        new = list(values)
        new[77] = -5
        picture = drawn(sum_dump(values), data("sum.psac"))
        self.check(picture)
        self.assertLessEqual(picture.count, record_svg.MOST)
        self.assertGreater(picture.count, record_svg.MOST / 4)
        picture = drawn(sum_dump(new), data("sum.psac"), sum_dump(values))
        self.check(picture)
        self.assertEqual(sum(s == "again" for i, s in picture.state.items() if picture.record.kind[i] == R), 12)
        self.assertLess(picture.count, 300)

    def test_parts(self):
        """Each triangle of a folded picture can be drawn by itself, and the parts have all nodes together."""
        values = [i % 1000 for i in range(256)]
        record, program = Record(sum_dump(values)), Program(data("sum.psac"))
        whole = record_svg.Picture(record, program, None, 14)
        self.assertGreater(len(whole.folds), 10)
        nodes = whole.count
        for i, s in whole.folds.items():
            self.assertIn("--part %d draws it" % (i + 2), whole.title(s))
            part = record_svg.Picture(record, program, None, None, i)
            self.check(part)
            nodes += part.count
        self.assertEqual(nodes, sum(record.kind.count(k) for k in NODES))
        new = Record(sum_dump([-1] + values[1:]))
        old, again = Record(sum_dump(values)), next(i for i in new.all(R) if new.block(i).number == 0)
        part = record_svg.Picture(new, program, old, None, again)
        self.assertEqual(part.state[again], "again")
        self.assertIn(">m", self.check(record_svg.Picture(new, program, old, None, new.parts_below(0, R).__next__() - 1)))

    def test_deep(self):
        n = 5000
        self.check(drawn(b"psac record 1\n" + b"S\n" * n + b"E\n" * (n + 1), depth=n))
        self.check(drawn(b"psac record 1\n" + b"S\nE\n" * n + b"E\n", depth=n))
        self.check(drawn(b"psac record 1\n" + b"S\nP\nE\n" * n + b"E\n" * (n + 1), depth=2 * n))

    def test_refused(self):
        for words, why in ((["sum.psac"], b"psac-record-svg: sum.psac: no record"), (["--part", "1", "refs.dump"], b"none in line 1"),
                           (["--part", "17", "refs.dump"], b"refs.dump has parts in the lines 2 to 16, and none in line 17")):
            out, err, status = run(["record-svg"] + words)
            self.assertEqual((out, status), (b"", 1))
            self.assertIn(why, err)


if __name__ == "__main__":
    unittest.main()
