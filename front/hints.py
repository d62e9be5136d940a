"""All hints: from the words, the lines of note and the status to what is said on standard error."""
import re

from front import fault_hints, input_hints, program_hints, words
from front.grid import Grid, read
from front.screen import code, folded, plain, short, write_whole
from front.source import Source
from front.tokens import NAME, tokens_of
from front.wording import counted, listed

STATUSES = {
    6: "standard input failed while the script was read",
    7: "standard output failed, so the report isn't whole: look at where it goes, such as a full disk",
    8: "the script has more than 16,777,216 bytes: split it",
    9: "memory ran out: give it more, or set smaller caps by --nodes, --mods and --links",
}
REFUSED = {
    "refused form": "that line is no command, and its parts have one space between them; "
    + code("'psac help SCRIPT'")
    + " lists the commands",
    "refused range": "there is no such cell, place or output, or no room for so many rows: all count from 0, and the "
    "option --rows makes room",
    "refused utf8": "the field isn't UTF-8",
    "refused limit": "the list of texts is full: use texts that are there, or numbers",
    "refused empty": "that place holds nothing",
    "refused kind": "what is there isn't of the kind that hold asks for",
    "stale": "what that place holds is no longer there: hold it anew",
}


def say(make):
    """Writes the hints that this makes to standard error. A mistake in them must not change how the run ends."""
    try:
        said = make()
    except Exception as error:  # noqa: BLE001
        said = [f"no hint could be made ({type(error).__name__})"]
    try:
        write_whole(2, lines_of(said))
    except OSError:
        pass


def lines_of(hints):
    """The hints as bytes, each line with its mark, and cut into lines of a page's width."""
    lines = []
    for it in map(plain, hints):
        # What is shown of a file begins with a blank, and stays one line.
        lines.extend([it] if it.startswith(" ") else folded(it))
    return b"".join(f"hint: {it}".rstrip().encode("utf-8", "replace") + b"\n" for it in lines)


def after(given, noted, status):
    """The hints on a run that has ended."""
    try:
        request = words.read(given)
    except words.Wrong as wrong:
        return usage(str(wrong)) if status == 2 else []
    if status == 2:
        return usage("the words aren't of the form that the usage line shows")
    if status in STATUSES:
        return [STATUSES[status]]
    if status == 3:
        return files(request)
    lines = []
    for line in noted:
        if len(noted) > 1:
            lines.append(f"on '{line}':")
        lines.extend(on_line(request, line, lambda: cells_of(request), request.has_script))
    return lines


def usage(why):
    """Hints on the usage line."""
    pages = code("'psac help'") + " shows how psac is called, and " + code("'psac help once'") + " an example"
    return [why, pages]


def files(request):
    """Hints on a file that could not be loaded."""
    lines = []
    named = [("program", request.program), ("input", request.input)]
    for role, name in named[:1] if request.mode == "bench" else named:
        source = Source(name)
        if source.why:
            lines.append(f"the {role} {short(name, 60)} could not be loaded: {source.why}")
            lines.extend(source.more)
    return lines or ["a file could not be loaded, and both can be now"]


def cells_of(request):
    """The grid of the input, or None where it can't be looked at again."""
    source = Source(request.input)
    return None if source.data is None else Grid(read(source.name, source.data), request.options["rows"])


def on_line(request, line, look, is_edited=False):
    """The hints on one line of the report. `look` gives the grid; where is_edited it is the file's, though edits came."""
    if line in REFUSED:
        return [REFUSED[line]]
    if line == "full":
        return full(request)
    source = Source(request.input if line.startswith("input") else request.program)
    if source.data is None:
        return source.more or [f"the file can't be read any more: {source.why}"]
    record = re.fullmatch(r"input record (\d+) (.+)", line)
    if record:
        return input_hints.refused(source, int(record[1]), record[2])
    fault = re.fullmatch(r"fault ([a-z]+) line (\d+)", line)
    if fault:
        return fault_hints.fault(source, fault[1], int(fault[2]), look(), is_edited)
    refusal = re.fullmatch(r"program line (\d+) (.+)", line)
    return on_refusal(request, source, int(refusal[1]), refusal[2]) if refusal else []


def on_refusal(request, source, number, text):
    """The hints on 'program line L ..'."""
    syntax = re.fullmatch(r"column (\d+) syntax", text)
    if syntax:
        return swapped(request, source) or program_hints.syntax(source, number, int(syntax[1]))
    limit = re.fullmatch(r"limit (\d+)", text)
    if limit:
        return program_hints.limit(source, number, int(limit[1]))
    return program_hints.rule(source, number, text)


def begins_program(data):
    """Whether a text begins as a program does."""
    return [it.symbol for it in tokens_of(data[:4096])[:3]] == ["func", NAME, "("]


def swapped(request, source):
    """That the two files look swapped, where they do."""
    other = Source(request.input)
    if other.data is None or begins_program(source.data) or not begins_program(other.data):
        return []
    program, given = short(request.program, 60), short(request.input, 60)
    return [
        f"the two files look swapped: {given} begins as a program does, and {program} doesn't",
        "the program comes first: " + code(f"psac {request.mode} {given} {program}"),
    ]


def full(request):
    """Which caps are in force, and how they are raised."""
    caps = listed(code(f"--{it} {request.options[it]}") for it in ("nodes", "mods", "links"))
    return [
        f"the record of the run would grow past one of its caps, which are {caps}",
        "psac doesn't say which; each option takes a larger number, up to 1048576",
    ]


def range_of(cells):
    """Which cells a session can name."""
    staged = [row for row, column, _ in cells.staged if column is None]
    rows = staged[-1] if staged else cells.rows
    there = "there are no cells"
    if rows and cells.cols:
        there = f"rows go from 0 to {rows - 1} and columns from 0 to {cells.cols - 1}"
    return f"{there}; there is room for {counted(cells.room, 'row')} (the option --rows makes more)"
