"""The cases: each is files, a script and words, and follows from a seed and its number alone."""
import os
import random
import re

import changed
import made
from wanted import ROOT


def read(path):
    with open(path, "rb") as it:
        return it.read()


class Case:
    """One case. Where it `has_workers`, its report is the same with any number of workers."""

    def __init__(self, number, what, words, files, script, has_workers=True):
        self.number, self.what, self.words, self.files, self.script = number, what, words, files, script
        self.has_workers = has_workers

    def is_session(self):
        return b"session" in self.words[:1]


class Kept:
    """A program of the repository, with the input, the script and the options that it has there."""

    def __init__(self, program, given=None, script=None, options=()):
        self.program, self.given, self.script, self.options = program, given, script, list(options)


def example(folder):
    name = next(it for it in sorted(os.listdir(folder)) if it.startswith("input."))
    options = read(f"{folder}/options.txt").split() if os.path.exists(f"{folder}/options.txt") else []
    return Kept(read(f"{folder}/program.psac"), (name.encode(), read(f"{folder}/{name}")), read(f"{folder}/script.txt"), options)


def kept():
    """The examples, the worked programs, and those that the page of the language shows."""
    got = [example(it.path) for it in sorted(os.scandir(f"{ROOT}/examples"), key=lambda it: it.name) if it.is_dir()]
    worked = f"{ROOT}/tests/fuzz/programs"
    got += [Kept(read(f"{worked}/{name}")) for name in sorted(os.listdir(worked))]
    shown = re.findall(rb"^```\n(.*?func main.*?)^```$", read(f"{ROOT}/docs/LANGUAGE.md"), flags=re.M | re.S)
    return got + [Kept(it) for it in shown]


class Cases:
    """All cases of a seed."""

    KINDS = ["program"] * 6 + ["made"] * 6 + ["input"] * 3 + ["script"] * 4 + ["words"] * 2 + ["bytes"] * 2

    def __init__(self, seed):
        self.seed, self.kept = seed, kept()
        self.programs = [it.program for it in self.kept]

    def case(self, number):
        """The case of this number."""
        chance = random.Random(f"{self.seed} {number}")
        what = chance.choice(self.KINDS)
        base = chance.choice(self.kept)
        name, given = base.given or (None, None)
        if not name or chance.random() < 0.3:
            name, given = chance.choice([b"input.csv", b"input.txt"]), made.grid(chance)
        script = base.script if base.script and chance.random() < 0.6 else made.script(chance)
        parts = {"program": base.program, "input": given, "script": script}
        if what == "made":
            parts["program"] = made.Maker(chance, chance.random() < 0.9).program()
        elif what == "bytes":
            parts[chance.choice(list(parts))] = changed.random_bytes(chance)
        elif what != "words":
            others = self.programs if what == "program" else [read(__file__), *self.scripts_and_inputs(what)]
            parts[what] = changed.changed(chance, parts[what], others)
        return self.with_words(chance, number, what, parts, name, base.options)

    def scripts_and_inputs(self, what):
        return [it.script if what == "script" else it.given[1] for it in self.kept if it.given]

    def with_words(self, chance, number, what, parts, name, options):
        files = {b"program.psac": parts["program"], name: parts["input"]}
        if what == "words":
            words = made.words(chance, b"program.psac", name)
            if chance.random() < 0.5:
                words = changed.changed_words(chance, words)
            return Case(number, what, words, files, parts["script"], False)
        mode = b"session" if what == "script" or chance.random() < 0.7 else b"once"
        its_caps = made.caps(chance, mode == b"session")
        if options and b"--rows" not in its_caps:
            its_caps += options
        return Case(number, what, [mode, b"program.psac", name, *its_caps], files, parts["script"])
