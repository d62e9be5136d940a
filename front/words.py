"""The words of the command line, as docs/MESSAGES.md ("The usage line") has them."""
import re
from typing import Dict, NamedTuple

from front.screen import code, short
from front.wording import listed

MODES = ("once", "session", "bench", "dump", "certify", "watch")
# How many cells and batches a bench has, at least and at most.
CELLS, BATCHES = (1, 65536), (0, 1000)


class Range(NamedTuple):
    """The least and the most that an option takes, and what it is without the option."""

    least: int
    most: int
    default: int


OPTIONS = {
    "workers": Range(1, 64, 4),
    "nodes": Range(1, 1048576, 262144),
    "mods": Range(1, 1048576, 131072),
    "links": Range(1, 1048576, 262144),
    "rows": Range(0, 65536, 0),
}


class Wrong(Exception):
    """What is wrong with the words, as a sentence."""


class Request(NamedTuple):
    """What the words ask for: a mode, the names of the program and of the input, and the numbers of the options.

    In the place of the input's name a bench has its two numbers, as in '64x5'.
    """

    mode: str
    program: str
    input: str
    options: Dict[str, int]

    @property
    def has_script(self):
        """Whether a script of edits and commits is read."""
        return self.mode in ("session", "watch")


def read(given):
    """The request that these words make, or Wrong."""
    plain, numbers = parted(given)
    check_plain(plain)
    return Request(*plain, {name: number_of(name, numbers.get(name)) for name in OPTIONS})


def parted(given):
    """The words that are no options, and the numbers that stand behind the options."""
    plain, numbers, rest = [], {}, list(given)
    while rest:
        word = rest.pop(0)
        if word == "--":
            return plain + rest, numbers
        if not word.startswith("-") or word == "-":
            plain.append(word)
            continue
        name, is_joined, number = option_of(word)
        if not is_joined:
            if not rest or rest[0].startswith("--"):
                raise Wrong(f"the option --{name} needs a number behind it")
            number = rest.pop(0)
        if name in numbers:
            raise Wrong(f"the option --{name} is there twice")
        numbers[name] = number
    return plain, numbers


def option_of(word):
    """The name of an option, whether its number is joined to it by '=', and that number."""
    name, mark, number = word[2:].partition("=")
    if word in ("-h", "--help"):
        raise Wrong(f"a question for help comes first, as in: {code('psac --help')}")
    if not word.startswith("--") or name not in OPTIONS:
        raise Wrong(f"there is no option {short(word, 60)}; the options are {listed('--' + it for it in OPTIONS)}")
    return name, bool(mark), number


def check_plain(plain):
    """Says which of the three words is missing, or that there are more."""
    if not plain:
        raise Wrong("a mode, a program and an input are missing")
    if plain[0] not in MODES:
        if plain[0].endswith(".psac") or len(plain) == 2:
            example = code(f"psac {MODES[0]} {' '.join(short(it, 60) for it in plain)}")
            raise Wrong(f"the mode, {listed(MODES, 'or')}, is first, as in: {example}")
        raise Wrong(f"the first word is the mode, {listed(MODES, 'or')}, and {short(plain[0], 60)} is none")
    if len(plain) == 1:
        raise Wrong("the names of the program and of the input are missing")
    if len(plain) == 2:
        name = short(plain[1], 60)
        raise Wrong(f"a program and an input are needed, and behind {plain[0]} there is only one name, {name}")
    if len(plain) > 3:
        more = short(plain[3], 60)
        raise Wrong(f"behind the program and the input there is one word too many, {more}; a name with blanks needs quotes")
    if plain[0] == "bench":
        check_counts(plain[2])


def check_counts(word):
    """Says where the two numbers of a bench are none, or outside their ranges."""
    found = re.fullmatch("([0-9]{1,9})x([0-9]{1,9})", word)
    if not found or any(not least <= int(it) <= most for it, (least, most) in zip(found.groups(), (CELLS, BATCHES))):
        form = f"{CELLS[0]} to {CELLS[1]} cells and {BATCHES[0]} to {BATCHES[1]} batches, as in {code('64x5')}"
        raise Wrong(f"bench takes {form}, and '{short(word, 60)}' isn't that")


def number_of(name, number):
    """The number of an option, which is its default where none was given."""
    least, most, default = OPTIONS[name]
    if number is None:
        return default
    if not re.fullmatch("[0-9]{1,9}", number) or not least <= int(number) <= most:
        raise Wrong(f"--{name} takes a number from {least} to {most}, and '{short(number, 60)}' isn't one")
    return int(number)
