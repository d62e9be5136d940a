"""psac explain PROGRAM INPUT SCRIPT: which blocks the last commit of a script ran again, and why.

The program answers the script's edits and commits. The cells before the last commit and after it are written as
inputs, the program dumps the record over each, and tools/explain compares both records. Nothing of this is proved.
Its last line is what the session answered, and where the records say otherwise, so does this.
"""
import importlib.machinery
import importlib.util
import os
import re
import signal
import subprocess
import sys
import tempfile
from typing import Any, NamedTuple

from front import grid, words
from front.screen import short
from front.source import MOST_BYTES
from front.tokens import tokens_of
from front.wording import counted

_EDIT = re.compile(rb"set [0-9]{1,9} [0-9]{1,9} .*|rows [0-9]{1,9}", re.S)
# A line that is no command. Behind an edit, its reply says that the edit's own one has come, if there is any.
_MARK, _MARKED = b"?", b"refused form"
# What stands before another work line than the session's.
_DIFFERS = b"these records differ by another repair than the session's: "
_TOOLS = os.path.join(os.path.dirname(os.path.dirname(os.path.abspath(__file__))), "tools")


class CantSay(Exception):
    """Why there is nothing to tell, as a sentence, with the status to end with and what the program wrote."""

    def __init__(self, why, status=1, output=b""):
        super().__init__(why)
        self.status, self.output = status, output


class Files(NamedTuple):
    """The bytes of the program, of the input and of the script, and the input's name in the folder of the runs."""

    program: bytes
    input: bytes
    script: bytes
    input_name: str


class Step(NamedTuple):
    """An edit or a commit of a script: the number of its line, the line, and the reply to it."""

    number: int
    line: bytes
    reply: bytes

    @property
    def is_commit(self):
        return self.line == b"commit"

    @property
    def is_taken(self):
        return not self.reply


class Commit(NamedTuple):
    """The last commit: its step and the one of the commit before, if there is one, how many there are, the edits
    between both, and the cells before it and after it."""

    step: Step
    last: Any
    count: int
    edits: list
    before: list
    after: list


# What the words name.


def asked(given):
    """The names of the three files, and the numbers of the options."""
    plain, numbers = words.parted(given)
    if len(plain) != 3:
        raise words.Wrong(f"explain takes a program, an input and a script, and here are {counted(len(plain), 'name')}")
    return plain, {name: words.number_of(name, numbers.get(name)) for name in words.OPTIONS}


def loaded(name):
    """The bytes of a file; '-' is standard input."""
    try:
        with open(0 if name == "-" else name, "rb", closefd=name != "-") as file:
            data = file.read(MOST_BYTES + 1)
    except (OSError, ValueError) as error:
        raise CantSay(f"{short(name)}: {getattr(error, 'strerror', None) or error}", 3) from None
    if len(data) > MOST_BYTES:
        raise CantSay(f"{short(name)} has more than {MOST_BYTES:,} bytes", 3)
    return data


# What the session does.


def steps_of(script):
    """The edits and commits of a script up to its last commit, each with the number of its line, without replies."""
    found = []
    for number, (_, (line,)) in enumerate(grid.lines_as_records(script), 1):
        if line == b"quit":
            break
        if line == b"commit" or _EDIT.fullmatch(line):
            found.append(Step(number, line, b""))
    while found and not found[-1].is_commit:
        found.pop()
    if not found:
        raise CantSay("the script has no commit")
    return found


def ended(line):
    """A line with its end. A carriage return at its own end is kept by another one."""
    return line + (b"\r\n" if line.endswith(b"\r") else b"\n")


def answered(run, files, steps):
    """The steps with their replies."""
    script = b"".join(ended(it.line) + (b"" if it.is_commit else ended(_MARK)) for it in steps)
    replies = iter(run("session", files.program, files.input_name, files.input, script).split(b"\n"))
    for it in steps:
        reply = next(replies, b"")
        if not it.is_commit:
            taken = reply == _MARKED
            if not taken and next(replies, b"") != _MARKED:
                raise CantSay(f"the session gave no answer to line {it.number}")
            reply = b"" if taken else reply
        yield it._replace(reply=reply)


def followed(cells, steps):
    """The last commit, from the cells that a session begins with and all of its steps."""
    last, count, edits = None, 0, []
    for it in steps[:-1]:
        if not it.is_commit:
            edits.append(it)
            if it.is_taken:
                cells.stage(it.line)
            continue
        cells.commit()
        last, count, edits = it, count + 1, []
    before = [list(row) for row in cells.cells]
    cells.commit()
    return Commit(steps[-1], last, count + 1, edits, before, cells.cells)


# The records before and after.


def quoted(field):
    """A field as a record of an input has it."""
    is_plain = field and not re.search(b'[",\r\n]', field) and not field.startswith(b"\xef\xbb\xbf")
    return field if is_plain else b'"' + field.replace(b'"', b'""') + b'"'


def input_of(cells):
    """The input that has these fields."""
    return b"".join(b",".join(map(quoted, fields)) + b"\n" for fields in cells)


def with_fields(cells, has_columns, when):
    """The rows up to the last one that has a field. These have to be full, since no field of an input is empty."""
    rows = list(cells)
    while rows and rows[-1].count(None) == len(rows[-1]):
        rows.pop()
    if has_columns and not rows:
        raise CantSay(f"no cell has a field {when} the last commit, and no input has columns without rows")
    for row, fields in enumerate(rows):
        if None in fields:
            where = f"row {row}, column {fields.index(None)}"
            raise CantSay(f"{where} is empty {when} the last commit, and no field of an input is")
    return rows


def replaced(program, texts):
    """The program with these texts in the place of `rows`, `cols` and `rows()`, where they are given."""
    tokens, found, at = tokens_of(program), [], 0
    for place, it in enumerate(tokens):
        is_call = [other.symbol for other in tokens[place : place + 3]] == ["rows", "(", ")"]
        text = texts.get("rows()" if is_call else it.symbol)
        if text is not None:
            found += [program[at : it.start], text]
            at = tokens[place + 2].end if is_call else it.end
    return b"".join([*found, program[at:]])


def named_rows(text, place):
    """A dump in which the number of rows stands at the place of a cell, with its own name."""
    names = re.compile(rb'"(?:[^"\\]|\\.)*"|(?<=[ &,])' + place + rb"(?![0-9])", re.S)
    return names.sub(lambda it: b"r" if it[0] == place else it[0], text)


def record_of(run, files, opened, cells, when):
    """The dump over these cells of a session that was opened over others, whose `rows` and `cols` the program sees."""
    rows = with_fields(cells, opened.cols, when)
    sizes = {"rows": b"%d" % opened.had_rows, "cols": b"%d" % opened.cols}
    if len(rows) == len(cells):
        program = files.program if len(rows) == opened.had_rows else replaced(files.program, sizes)
        return run("dump", program, "input.csv", input_of(rows))
    # The last rows are empty. The input ends above them, and has the number of all rows in one more column.
    program = replaced(files.program, {**sizes, "rows()": b"cell(0, %d)" % opened.cols})
    given = input_of([*fields, b"%d" % len(cells)] for fields in rows)
    return named_rows(run("dump", program, "input.csv", given), b"c/0/%d" % opened.cols)


# What is told.


def tool(name):
    """A tool as a module."""
    sys.path.insert(0, _TOOLS)
    loader = importlib.machinery.SourceFileLoader(name, os.path.join(_TOOLS, name))
    module = importlib.util.module_from_spec(importlib.util.spec_from_loader(name, loader))
    loader.exec_module(module)
    return module


def reasons(files, commit, dumps):
    """The lines of tools/explain over both records. The last one is a work line."""
    explain = tool("explain")
    script = b"".join(ended(it.line) for it in commit.edits if it.is_taken) + b"commit\n"
    try:
        old, new = (explain.Record(it, f"the record {when}") for it, when in zip(dumps, ("before", "after")))
        story = explain.Story(old, new, explain.Program(files.program, "the program"), explain.read_edits(script))
        return [it.encode("utf-8", "replace") for it in story.lines(100)]
    except (explain.BadRecord, explain.BadProgram, explain.Apart) as fault:
        raise CantSay(str(fault)) from None


def why_anew(commit):
    """Why the last commit ran the program from the start."""
    if commit.last is None:
        return b"the whole program was run: no record is kept before the first commit"
    if not commit.last.reply.startswith(b"mode="):
        return b"the whole program was run: no record was kept by the commit in line %d, which replied: %s" % (
            commit.last.number, commit.last.reply)  # fmt: skip
    return b"the whole program was run: the record before it and what a repair makes would together pass a cap"


def told(run, files, opened, commit):
    """What there is to tell of the last commit, line by line. The last line is the session's."""
    yield b"commit %d, in line %d of the script:" % (commit.count, commit.step.number)
    for it in commit.edits:
        if not it.is_taken:
            yield b"line %d: %s" % (it.number, it.reply)
    if commit.step.reply.startswith(b"mode=anew "):
        yield why_anew(commit)
    elif commit.step.reply.startswith(b"mode=repair "):
        cells = (commit.before, "before"), (commit.after, "after")
        lines = reasons(files, commit, [record_of(run, files, opened, *it) for it in cells])
        yield from lines[:-1]
        if lines[-1] != commit.step.reply:
            yield _DIFFERS + lines[-1]
    else:
        yield b"the run didn't end well, so it left no record that could be compared"
    yield commit.step.reply


class Runs:
    """Runs of the program, in a folder of their own."""

    def __init__(self, program, options, folder):
        self.program, self.folder = program, folder
        self.options = [it for name, number in options.items() for it in (f"--{name}", str(number))]

    def __call__(self, mode, program, input_name, given, script=b""):
        """What a run writes. Where it doesn't end well, that is passed on."""
        for name, content in (("program.psac", program), (input_name, given)):
            with open(os.path.join(self.folder, name), "wb") as file:
                file.write(content)
        words_of_run = [self.program, mode, "program.psac", input_name, *self.options]
        ran = subprocess.run(words_of_run, cwd=self.folder, input=script, stdout=subprocess.PIPE)
        if ran.returncode:
            raise CantSay(f"the program ended with status {ran.returncode}", max(ran.returncode, 1), ran.stdout)
        return ran.stdout


def explain(program, given):
    """What there is to tell of the last commit that these words name, line by line."""
    names, options = asked(given)
    input_name = "input.txt" if grid.is_lines(names[1]) else "input.csv"
    files = Files(*map(loaded, names), input_name)
    steps = steps_of(files.script)
    opened = grid.Grid(grid.read(input_name, files.input), options["rows"])
    with tempfile.TemporaryDirectory(prefix="psac-explain-") as folder:
        run = Runs(os.path.abspath(program), {**options, "rows": opened.room}, folder)
        return list(told(run, files, opened, followed(opened, list(answered(run, files, steps)))))


def main(program, given):
    """The status of `psac explain` with these words."""
    output, why, status = b"", "", 0
    try:
        lines = explain(program, given)
        output, status = b"".join(it + b"\n" for it in lines), int(any(it.startswith(_DIFFERS) for it in lines))
    except (CantSay, words.Wrong) as fault:
        output, why, status = getattr(fault, "output", b""), f"psac explain: {fault}\n", getattr(fault, "status", 2)
    # From here on a pipe whose reader goes away ends this. Before, one to a program that refuses its files would have.
    signal.signal(signal.SIGPIPE, signal.SIG_DFL)
    sys.stdout.buffer.write(output)
    sys.stdout.flush()
    sys.stderr.write(why)
    return status
