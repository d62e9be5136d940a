"""The lines of the program's report that the front looks at."""
import re

# The lines that hints are given on.
_NOTED = re.compile(
    rb"^(usage: psac .*|program line \d+ .*|input record \d+ .*|fault [a-z]+ line \d+|full"
    rb"|refused (?:form|range|utf8|limit|empty|kind)|stale)$",
    re.M,
)
# How the answer to a commit begins.
_ANSWER = re.compile(rb"^(?:mode=|fault [a-z]+ line |full$)", re.M)
_MOST_NOTED = 3
_LONGEST = 200


class Report:
    """Takes in a report piece by piece. It keeps the first different lines of note, and how many commits were answered."""

    def __init__(self):
        self.noted, self.commits = [], 0
        self._rest, self._is_cut = b"", False

    def add(self, piece):
        """Takes in a piece of any length."""
        whole, feed, rest = piece.rpartition(b"\n")
        if feed:
            self._look(self._rest + whole if not self._is_cut else whole.partition(b"\n")[2])
            self._rest, self._is_cut = b"", False
        if not self._is_cut:
            self._rest += rest
        if len(self._rest) > _LONGEST:
            # No line of note is so long.
            self._rest, self._is_cut = b"", True

    def _look(self, lines):
        """Looks at whole lines."""
        self.commits += sum(1 for _ in _ANSWER.finditer(lines))
        for found in _NOTED.finditer(lines):
            if len(self.noted) == _MOST_NOTED:
                return
            line = found.group().decode("utf-8", "replace")
            if line not in self.noted:
                self.noted.append(line)
