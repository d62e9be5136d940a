"""The commands of an interactive session, for its help, its completion and its hints."""
import difflib
import re
from typing import NamedTuple

from front.screen import short
from front.wording import listed


class Command(NamedTuple):
    """A command: its form, what it does, more about it, and the lines that are of its form."""

    form: str
    does: str
    more: str
    pattern: str


_NUMBER = "[0-9]{1,9}"
# The program's commands, as docs/SCRIPT.md has them.
COMMANDS = {
    "set": Command(
        "set R C FIELD",
        "stages a value for the cell of row R and column C",
        "Rows and columns count from 0. FIELD is the rest of the line, with its blanks,\n"
        "and may be empty. A whole number is a number, and all else a text. Nothing is\n"
        "printed, and nothing runs before commit.\n"
        "  set 1 0 north",
        rf"set {_NUMBER} {_NUMBER} .*",
    ),
    "rows": Command(
        "rows N",
        "stages N as the present number of rows",
        "Cells of rows that go are emptied for good; rows that come are empty (nil).\n"
        "There is room for more rows than the input has where psac was started with the\n"
        "option --rows N.\n"
        "  rows 4",
        rf"rows {_NUMBER}",
    ),
    "commit": Command(
        "commit",
        "puts what is staged into the grid, and runs what has to be run",
        "The answer is the work line. mode=anew .. inside=11 ..: the program was run\n"
        "from the start, with so many read blocks. mode=repair .. rerun=7 ..: so many of\n"
        "them ran again. Or the answer is a fault line, or full: the edits stay in the\n"
        "grid then, and show answers none.",
        "commit",
    ),
    "show": Command(
        "show",
        "shows the outputs of the last commit",
        "One line for each output of main; none where there was no commit yet, or the\n"
        "last one didn't end well.",
        "show",
    ),
    "quit": Command("quit", "ends the session", "Ctrl-D does the same.", "quit"),
    "tree": Command(
        "tree",
        "shows the size of the record of the last commit",
        "S, P and R are its nodes: one S for each if, call, par and read that was run,\n"
        "one P more for each par, one R more for each read. mods are the\n"
        "places that new made, links the reads.\n"
        "none where there was no commit yet, or the last one didn't end well.",
        "tree",
    ),
    "hold": Command(
        "hold H out I",
        "holds output I at place H, or what a place leads to",
        "What is held is output I, or what the value at place G refers to, or the first\n"
        "or the second one of the pair there. There are 64 places, from 0 on.\n"
        "  hold H out I\n  hold H ref G\n  hold H fst G\n  hold H snd G",
        rf"hold {_NUMBER} (out|ref|fst|snd) {_NUMBER}",
    ),
    "held": Command("held H", "shows the value of what place H holds", "stale where that is no longer there. help hold says more.", rf"held {_NUMBER}"),
}

# The commands that the front answers itself.
OWN = {
    "autoshow": Command(
        "autoshow",
        "shows the outputs after each commit, until autoshow again",
        "A * stands before outputs that have changed since they were last shown so.\n"
        "autoshow on and autoshow off say which of the two is meant.",
        "autoshow( on| off)?",
    ),
    "help": Command(
        "help COMMAND",
        "says more about a command; ? is short for help",
        "help alone lists all commands.",
        "help.*",
    ),
}
AUTOSHOW = {
    True: "autoshow is on: the outputs follow each commit, and * marks those that changed.\n",
    False: "autoshow is off.\n",
}


def help_on(words):
    """The answer to 'help' with these words behind it."""
    if not words:
        return overview()
    name = "help" if words[0] == "?" else words[0]
    command = COMMANDS.get(name) or OWN.get(name)
    if command is None:
        close = difflib.get_close_matches(name.lower(), [*COMMANDS, *OWN], 1, 0.5)
        return f"There is no command '{short(name)}'. There is {listed(close or [*COMMANDS, *OWN])}.\n"
    return f"{command.form}: {command.does}\n{command.more}\n"


def overview():
    """All commands, and the keys."""
    shown = list(COMMANDS.values()) + list(OWN.values())
    return "".join(f"  {it.form:<16}{it.does}\n" for it in shown) + (
        "\n"
        "What is staged comes into force at the next commit. Rows and columns count\n"
        "from 0. The parts of a command have one space between them. A line that begins\n"
        "with # is a comment.\n"
        "Keys: Tab completes, the arrows go through the history, Ctrl-C drops the line,\n"
        "Ctrl-D ends the session.\n"
    )


def why_refused(line):
    """Why the program refuses a line as no command, as a sentence."""
    words = line.split()
    if not words:
        return "a line of blanks is no command"
    name = words[0]
    if name not in COMMANDS:
        close = difflib.get_close_matches(name.lower(), [*COMMANDS, *OWN], 1, 0.6)
        return f"there is no command {short(name)}; " + (f"there is {close[0]}" if close else "help lists them all")
    return wrong_form(name, line, words)


def wrong_form(name, line, words):
    """Why a line that begins with a command isn't of its form."""
    command = COMMANDS[name]
    if name != "set" and line != line.strip(" ") and re.fullmatch(command.pattern, line.strip(" ")):
        return "there is a space too many before or behind it"
    if re.fullmatch(command.pattern, " ".join(words)) and line != " ".join(words):
        return f"the parts have one space between them: {command.form}"
    if name == "set" and len(words) == 3:
        return f"the form is {command.form}; for an empty field the line ends with a space"
    if any(re.fullmatch("-[0-9]+", it) for it in words[1:3]):
        return f"the form is {command.form}, and its numbers have no sign"
    return f"the form is: {command.form}"


def candidates(words, prefix):
    """What may follow these words and begins with the prefix."""
    if not words:
        found = [f"{it} " if " " in COMMANDS[it].form else it for it in COMMANDS] + [*OWN]
    elif words == ["help"] or words == ["?"]:
        found = [*COMMANDS, *OWN]
    elif words == ["autoshow"]:
        found = ["on", "off"]
    else:
        found = []
    return [it for it in found if it.startswith(prefix)]
