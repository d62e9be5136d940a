import os
import unittest
import xml.etree.ElementTree as ElementTree

from common import PICTURES, data, run, tool

plot = tool("work-plot")
LINE = "mode=repair visited=%d rerun=%d inside=0 dropped=0 nodes=%d mods=0 links=0"
STORED = [
    (["growing-session.out"], "growing-session.svg"),
    (["--log", "growing-session.out"], "growing-session-log.svg"),
    (["--log", "session.out"], "session-log.svg"),
    (["--log", "long-session.out"], "long-session-log.svg"),
]


class Plotting(unittest.TestCase):
    def test_commits(self):
        found = plot.commits_of(data("growing-session.out").decode())
        self.assertEqual([c.mode for c in found], ["anew"] + ["repair"] * 6 + ["lost", "anew"] + ["repair"] * 4)
        self.assertEqual(found[1].values, {"visited": 2, "rerun": 1, "inside": 15, "dropped": 7, "nodes": 74})
        other = 'full\r\nout = "full"\nfull \nfault kind line 3\nmode=anew\nheld 1 = nil\n' + LINE % (1, 2, 3) + " \n"
        self.assertEqual([c.line for c in plot.commits_of(other)], ["full", "fault kind line 3"])

    def test_steps(self):
        self.assertEqual(plot.steps(994, 6), [0, 200, 400, 600, 800, 1000])
        self.assertEqual(plot.steps(0, 6), [0, 1])
        self.assertEqual(plot.steps(7, 6), [0, 2, 4, 6, 8])
        for most in list(range(1, 3000, 7)) + [10 ** 6, 655354]:
            ticks = plot.steps(most, 6)
            self.assertTrue(ticks[-1] >= most and 2 <= len(ticks) <= 9, (most, ticks))

    def test_stored(self):
        for words, name in STORED:
            with open(os.path.join(PICTURES, name), "rb") as f:
                self.assertEqual(run(["work-plot"] + words), (f.read(), b"", 0), name)
        with open(os.path.join(PICTURES, "growing-session.svg"), "rb") as f:
            stored = f.read().replace(b"growing-session.out: 13", b"session: 13")
        self.assertEqual(run(["work-plot"], data("growing-session.out"))[0], stored)

    def test_bounds(self):
        """Points lie within the axes, also for one commit, for zeros and for great numbers."""
        for rows in ([(0, 0, 0)], [(1, 1, 1)], [(10 ** 6, 5, 655354), (3, 2, 1)], [(i, i // 2, i * i) for i in range(300)]):
            for log in (False, True):
                text = plot.svg(plot.commits_of("\n".join(LINE % r for r in rows)), "x", log)
                root = ElementTree.fromstring(text)
                width, height = float(root.get("width")), float(root.get("height"))
                for e in root.iter("{http://www.w3.org/2000/svg}circle"):
                    self.assertTrue(0 < float(e.get("cx")) < width and 50 < float(e.get("cy")) < height - 50)
        ElementTree.fromstring(plot.svg(plot.commits_of("full\nfault range line 1\n"), "<&>", True))

    def test_refused(self):
        self.assertEqual(run(["work-plot", "sum.psac"]), (b"", b"psac-work-plot: no work line in sum.psac\n", 1))


if __name__ == "__main__":
    unittest.main()
