"""The model against the examples: their outputs are those that the program has to print today."""
import os
import sys
import unittest

import session
import switches

sys.setrecursionlimit(20000)
EXAMPLES = os.path.join(os.path.dirname(os.path.abspath(__file__)), "..", "..", "examples")


def content(*names):
    with open(os.path.join(EXAMPLES, *names), "rb") as it:
        return it.read()


def options(name):
    """The options of an example by their names."""
    if not os.path.exists(os.path.join(EXAMPLES, name, "options.txt")):
        return {}
    words = content(name, "options.txt").decode().split()
    return {option.lstrip("-"): int(number) for option, number in zip(words[::2], words[1::2])}


def mode(name):
    """The mode of an example, which is a session's where it names none."""
    return content(name, "mode.txt").decode().strip() if os.path.exists(os.path.join(EXAMPLES, name, "mode.txt")) else "session"


class Examples(unittest.TestCase):
    def test_outputs(self):
        names = sorted(it.name for it in os.scandir(EXAMPLES) if it.is_dir())
        self.assertGreaterEqual(len(names), 9)
        for name in names:
            given = next(it for it in sorted(os.listdir(os.path.join(EXAMPLES, name))) if it.startswith("input."))
            settings = session.Settings(switches.REPAIRS, switches.HOLDS, **options(name))
            program, script = content(name, "program.psac"), content(name, "script.txt")
            got = session.report(mode(name), program, given, content(name, given), settings, script)
            self.assertEqual(got, (0, content(name, "output.txt")), name)


if __name__ == "__main__":
    unittest.main()
