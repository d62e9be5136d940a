"""The mistakes of beginners, each with the hint that is stored for it.

A folder of tests/front/mistakes has words.txt (the command line), its files, and wanted.txt: the report, the status and the
hints.
"""
import os
import shlex

import support

FOLDER = f"{support.HERE}/mistakes"


def told(name):
    """What is told of a mistake: the report, the status and the hints."""
    folder = f"{FOLDER}/{name}"
    with open(f"{folder}/words.txt") as file:
        words = shlex.split(file.read())
    given = b""
    if os.path.exists(f"{folder}/script.txt"):
        with open(f"{folder}/script.txt", "rb") as file:
            given = file.read()
    status, output, errors = support.launched(words, folder, given, PSAC_HINTS="1")
    return output + f"status {status}\n".encode() + errors


def store():
    """Stores what is told of each mistake."""
    for name in sorted(os.listdir(FOLDER)):
        text = told(name)
        with open(f"{FOLDER}/{name}/wanted.txt", "wb") as file:
            file.write(text)
        print(f"== {name}\n{text.decode()}")


class Mistakes(support.Case):
    def test_mistakes(self):
        names = sorted(os.listdir(FOLDER))
        self.assertGreaterEqual(len(names), 10)
        for name in names:
            with self.subTest(name), open(f"{FOLDER}/{name}/wanted.txt", "rb") as file:
                self.assertEqual(told(name).decode(), file.read().decode())
