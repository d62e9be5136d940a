"""What a terminal shows: text made harmless, source lines with a caret, and colour."""
import os
import select
import stat
import textwrap
import unicodedata

WIDTH = 72
_JOINED = "\u00a0"  # a blank at which no line ends


def is_terminal(number):
    """Whether this descriptor is a terminal."""
    try:
        return os.isatty(number)
    except OSError:
        return False


def is_device(name):
    """Whether this is the name of a device, such as a terminal."""
    try:
        return stat.S_ISCHR(os.stat(name).st_mode)
    except (OSError, ValueError):
        return False


def has_colour(number):
    """Whether colour is wanted there."""
    return is_terminal(number) and not os.environ.get("NO_COLOR") and os.environ.get("TERM", "dumb") != "dumb"


def write_whole(descriptor, content):
    """Writes all of these bytes."""
    rest = memoryview(content)
    while rest:
        try:
            rest = rest[os.write(descriptor, rest) :]
        except BlockingIOError:
            select.select([], [descriptor], [])


def plain(text):
    """A text without what would move the cursor or ring: each such character as a middle dot, and a tab as a space."""
    if isinstance(text, bytes):
        text = text.decode("utf-8", "replace")
    return "".join(it if it.isprintable() or it == _JOINED else " " if it == "\t" else "\u00b7" for it in text)


def code(text):
    """A text that stays on one line where a sentence with it is folded."""
    return text.replace(" ", _JOINED)


def folded(sentence):
    """A sentence in lines of a page's width."""
    lines = textwrap.wrap(sentence, WIDTH + 2, break_long_words=False, break_on_hyphens=False)
    return [it.replace(_JOINED, " ") for it in lines]


def short(text, most=40):
    """A harmless text of at most so many characters."""
    text = plain(text[: most * 8])
    return text if len(text) <= most else text[: most - 3] + "..."


def width(text):
    """How many columns of a terminal a text takes."""
    wide = sum(unicodedata.east_asian_width(it) in "WF" for it in text)
    return len(text) + wide - sum(bool(unicodedata.combining(it)) for it in text)


def with_caret(line, column):
    """A source line of bytes and a caret below its column (in bytes, from 1), cut to the width of a page."""
    before, behind = plain(line[: column - 1]), plain(line[column - 1 :])
    if width(before) > WIDTH - 20:
        before = "..." + before[-(WIDTH - 40) :]
    room = WIDTH - width(before)
    if width(behind) > room:
        behind = behind[: max(0, room - 3)] + "..."
    return before + behind, " " * width(before) + "^"
