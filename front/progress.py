"""A line at the terminal, on standard error, that says how far a long run is. It is taken away again."""
import os
import re
import select
import time

from front.screen import is_terminal, write_whole
from front.wording import counted

FIRST = 2.0  # seconds before the line is shown
EACH = 0.5  # seconds between two looks


class Progress:
    """The line of one run, from its beginning on. `commits` gives how many were answered, or None where none can be."""

    def __init__(self, process, commits, is_wanted=True):
        self.process, self.commits = process, commits
        self.is_wanted = is_wanted and is_terminal(2)
        self.begun = time.monotonic()
        self.next_look = self.begun + FIRST
        self.width = 0
        # A line of standard output that isn't ended yet leaves no room for another one.
        self.shares_terminal, self.is_room = is_terminal(1), True

    def wait(self, descriptor):
        """Waits until there is something to be read, and shows the line meanwhile."""
        while True:
            now = time.monotonic()
            if now >= self.next_look:
                self._show(now - self.begun)
                self.next_look = now + EACH
            if select.select([descriptor], [], [], self.next_look - now)[0]:
                return

    def make_room(self, piece):
        """Takes the line away before this piece of the report is written to the same terminal."""
        if self.shares_terminal:
            self.clear()
            self.is_room = piece.endswith(b"\n")

    def clear(self):
        """Takes the line away."""
        if self.width:
            _write(b"\r" + b" " * self.width + b"\r")
            self.width = 0

    def _show(self, seconds):
        if not (self.is_wanted and self.is_room and _is_in_front()):
            return
        parts = [duration(seconds), memory_of(self.process)]
        commits = self.commits()
        if commits is not None:
            parts.append(f"{counted(commits, 'commit')} answered")
        text = f"psac: {', '.join(it for it in parts if it)}"[: _columns() - 1]
        _write(b"\r" + text.ljust(self.width).encode())
        self.width = len(text)


def duration(seconds):
    """A time in words, as in '12 s' or '3 min 5 s'."""
    minutes, seconds = divmod(int(seconds), 60)
    return f"{minutes} min {seconds} s" if minutes else f"{seconds} s"


def memory_of(process):
    """How much memory a process has, in words, or nothing where that can't be seen."""
    try:
        with open(f"/proc/{process}/status", "rb") as file:
            found = re.search(rb"^VmRSS:\s*(\d+) kB", file.read(), re.M)
    except OSError:
        return ""
    return f"{-(-int(found[1]) // 1024):,} MiB of memory" if found else ""


def _columns():
    try:
        return os.get_terminal_size(2).columns or 80
    except OSError:
        return 80


def _is_in_front():
    """Whether this run isn't in the background of its terminal, where the line would fall between those of others."""
    try:
        return os.tcgetpgrp(2) == os.getpgrp()
    except OSError:
        return True


def _write(content):
    try:
        write_whole(2, content)
    except OSError:
        pass
