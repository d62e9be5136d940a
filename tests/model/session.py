"""Sessions: scripts line by line, what each changes, and the reply. Also the modes once, watch and bench."""
import re

import inputs
import record
import rule
import syntax
from language import Full, Run

CAPS = {"nodes": 262144, "mods": 131072, "links": 262144}
PLACES = 64
N = rb"([0-9]{1,9})"
COMMANDS = [
    ("set", re.compile(rb"set " + N + b" " + N + rb" ([^\n]*)", re.S)),
    ("rows", re.compile(rb"rows " + N)),
    ("commit", re.compile(rb"commit")),
    ("show", re.compile(rb"show")),
    ("tree", re.compile(rb"tree")),
    ("quit", re.compile(rb"quit")),
    ("hold", re.compile(rb"hold " + N + rb" (out|ref|fst|snd) " + N)),
    ("held", re.compile(rb"held " + N)),
]
ESCAPED = re.compile(rb'["\\\x00-\x1f\x7f]')
ESCAPES = {b'"': b'\\"', b"\\": b"\\\\", b"\n": b"\\n"}


def shown(value):
    """A value as it is printed."""
    if value[0] in {"nil", "ref", "pair"}:
        return value[0].encode()
    if value[0] == "bool":
        return b"true" if value[1] else b"false"
    if value[0] == "int":
        return b"%d" % value[1]
    return b'"' + ESCAPED.sub(lambda it: ESCAPES.get(it[0]) or b"\\x%02x" % it[0][0], value[1]) + b'"'


class Reply(Exception):
    """A line isn't carried out, for this reply."""


class Held:
    """What a place holds: the name of a modifiable, and whether it is stale."""

    def __init__(self, name):
        self.name, self.is_stale = name, False


class Kept:
    """The record and the words that the last commit left."""

    def __init__(self, run):
        self.tree, self.heap = run.tree, run.heap


class Session:
    """The state of a session. `repairs` and `holds` say whether the program has these."""

    def __init__(self, program, grid, texts, caps, repairs, holds):
        self.program, self.grid, self.texts, self.caps, self.repairs, self.holds = program, grid, texts, caps, repairs, holds
        self.staged, self.kept, self.places, self.work, self.commits = grid.copy(), None, {}, None, 0
        self.outputs = program.function("main").destinations

    # Commits.

    def commit(self):
        """Runs over what is staged: the line that is printed."""
        self.commits += 1
        self.grid, self.work = self.staged.copy(), None
        old, self.kept = self.kept, None
        try:
            run = Run(self.program, self.grid, self.caps)
        except Full:
            self.turn_stale()
            return b"full\n"
        if run.end:
            self.turn_stale()
            return f"fault {run.end.fault} line {run.end.line}\n".encode()
        self.kept = Kept(run)
        self.work = self.worked(old)
        return self.work.line().encode() + b"\n"

    def worked(self, old):
        redone = record.Redone(old.tree, self.kept.tree) if old and self.repairs else None
        work = record.repair(old.tree, redone, self.caps) if redone else None
        self.turn_stale(redone.blocks if work else None)
        return work or record.anew(self.kept.tree)

    def turn_stale(self, blocks=None):
        """Turns what was made inside these blocks stale, or without them whatever a run made."""
        for it in self.places.values():
            if it.name[0] == "made" and (blocks is None or record.was_made_inside(it.name[1], blocks)):
                it.is_stale = True

    def value(self, name):
        """What a modifiable holds; raises Reply where no record is kept for an output."""
        if name[0] == "rows":
            return ("int", self.grid.rows)
        if name[0] == "input":
            return self.grid.value(*name[1:])
        if not self.kept:
            raise Reply("none")
        return self.kept.heap[name]

    def of_place(self, place):
        """What the modifiable at a place holds; raises Reply."""
        if place not in self.places:
            raise Reply("refused empty")
        if self.places[place].is_stale:
            raise Reply("stale")
        return self.value(self.places[place].name)

    # Commands. Each gives its reply, or raises Reply.

    def set_command(self, row, column, field):
        if not self.staged.is_inside(int(row), int(column)):
            raise Reply("refused range")
        try:
            self.staged.cells[int(row), int(column)] = self.texts.field(field)
        except inputs.BadText as bad:
            raise Reply(f"refused {bad.why}") from None
        return b""

    def rows_command(self, rows):
        if int(rows) > self.staged.room:
            raise Reply("refused range")
        self.staged.set_rows(int(rows))
        return b""

    def commit_command(self):
        return self.commit()

    def show_command(self):
        if not self.kept:
            raise Reply("none")
        return b"".join(name.encode() + b" = " + shown(self.kept.heap["output", at]) + b"\n" for at, name in enumerate(self.outputs))

    def tree_command(self):
        if not self.kept:
            raise Reply("none")
        size = record.Size(self.kept.tree)
        return f"S={size.sequences} P={size.parallels} R={size.reads} mods={size.mods} links={size.links}\n".encode()

    def hold_command(self, place, what, other):
        place, other = int(place), int(other)
        if place >= PLACES or other >= (len(self.outputs) if what == b"out" else PLACES):
            raise Reply("refused range")
        if what == b"out":
            name = ("output", other)
        else:
            value = self.of_place(other)
            if value[0] != ("ref" if what == b"ref" else "pair"):
                raise Reply("refused kind")
            name = value[2 if what == b"snd" else 1]
        self.places[place] = Held(name)
        return b""

    def held_command(self, place):
        if int(place) >= PLACES:
            raise Reply("refused range")
        return b"held %d = " % int(place) + shown(self.of_place(int(place))) + b"\n"

    def line(self, line):
        """The reply to a line, or None where it ends the session."""
        if not line or line.startswith(b"#"):
            return b""
        for name, form in COMMANDS:
            got = form.fullmatch(line)
            if got and name == "quit":
                return None
            if got and (self.holds or name not in {"hold", "held"}):
                try:
                    return getattr(self, f"{name}_command")(*got.groups())
                except Reply as reply:
                    return f"{reply}\n".encode()
        return b"refused form\n"

    def script(self, given):
        """The replies to a script."""
        found = []
        for line in inputs.lines_of(given):
            reply = self.line(line)
            if reply is None:
                break
            found.append(reply)
        return b"".join(found)


class Settings:
    """The options of the command line, and which abilities the program has."""

    def __init__(self, repairs, holds, rows=0, **caps):
        self.repairs, self.holds, self.rows, self.caps = repairs, holds, rows, {**CAPS, **caps}


def opened(program_text, input_name, input_bytes, settings):
    """The session over a program and an input; raises Refused of one of them."""
    program = syntax.parse(program_text)
    rule.check(program)
    texts = inputs.Texts(program.texts)
    grid = inputs.load(input_name, input_bytes, texts, settings.rows)
    return Session(program, grid, texts, settings.caps, settings.repairs, settings.holds)


def once_report(session):
    """What a run alone prints."""
    reply = session.commit()
    return session.show_command() if session.kept else reply


def answered(reply, program_text, input_name, input_bytes, settings):
    """The status and the whole report of a run, whose session gives this reply once it is opened."""
    try:
        session = opened(program_text, input_name, input_bytes, settings)
    except syntax.Refused as refused:
        return 4, f"{refused}\n".encode()
    except inputs.Refused as refused:
        return 5, f"{refused}\n".encode()
    return 0, reply(session)


def watch_report(session, script):
    """The replies to a script, and how many commits there were."""
    replies = session.script(script)
    return replies + f"watched {session.commits}\n".encode()


def report(mode, program_text, input_name, input_bytes, settings, script=b""):
    """The status and the whole report of one run, or of a session, watched or not."""
    hows = {"once": once_report, "session": lambda it: it.script(script), "watch": lambda it: watch_report(it, script)}
    return answered(hows[mode], program_text, input_name, input_bytes, settings)


def bench(program_text, cells, batches, settings):
    """The report of the mode bench, over a grid and batches that follow from two numbers."""
    grid = inputs.Grid([[("int", (at * 37 + 11) % 1000)] for at in range(cells)], settings.rows)
    program = syntax.parse(program_text)
    rule.check(program)
    session = Session(program, grid, inputs.Texts(program.texts), settings.caps, settings.repairs, settings.holds)
    sums = dict.fromkeys(["repaired", "anew", "failed", "visited", "rerun", "inside", "dropped"], 0)
    for batch in range(batches + 1):
        for at in range(16 if batch else 0):
            session.staged.cells[(batch * 977 + at * 131) % cells, 0] = ("int", (batch * 31 + at * 17) % 1000)
        session.commit()
        work = session.work
        sums["failed" if not work else "repaired" if work.mode == "repair" else "anew"] += 1
        for it in ["visited", "rerun", "inside", "dropped"] if work else []:
            sums[it] += work.counts[it]
    summary = f"cells={cells} batches={batches} " + " ".join(f"{name}={number}" for name, number in sums.items())
    return summary.encode() + b"\n" + (session.show_command() if session.kept else b"none\n")
