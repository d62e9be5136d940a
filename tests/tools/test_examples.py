"""The examples' files that the tools made, and the pages that show them."""
import os
import unittest

from common import ROOT, run, tool
from runner import dump_of

EXAMPLES = os.path.join(ROOT, "examples")
SALES = [                           # what is given, and the stored file
    (["edits", "input.csv", "after.csv"], "edits.txt"),
    (["explain", "--program", "program.psac", "--edits", "edits.txt", "before.dump", "after.dump"], "explained.txt"),
    (["record-svg", "--program", "program.psac", "before.dump"], "before.svg"),
    (["record-svg", "--program", "program.psac", "--against", "before.dump", "after.dump"], "after.svg"),
]
RECOVERY = [(["work-plot", "output.txt"], "work.svg")]
STORED = [("sales", SALES), ("recovery", RECOVERY)]


def content(*names):
    with open(os.path.join(EXAMPLES, *names), "rb") as it:
        return it.read()


def dumps():
    """The names of the stored dumps, and what they have to hold."""
    load = tool("edits").load
    for name, given in (("before.dump", "input.csv"), ("after.dump", "after.csv")):
        yield name, dump_of(content("sales", "program.psac"), load(given, content("sales", given)))


class Examples(unittest.TestCase):
    def test_dumps(self):
        for name, wanted in dumps():
            self.assertEqual(content("sales", name), wanted, name)

    def test_stored(self):
        for example, files in STORED:
            for words, name in files:
                self.assertEqual(run(words, folder=os.path.join(EXAMPLES, example)), (content(example, name), b"", 0), name)

    def test_edits(self):
        """The edits are those of the example's script."""
        made = content("sales", "edits.txt").split(b"\n")
        self.assertEqual(made[:-1], [it for it in content("sales", "script.txt").split(b"\n")[2:] if it not in (b"", b"show")])
