"""The program of an interactive session, line by line: each line is sent, and its reply comes back whole.

Behind each line two lines are sent that are always refused, by 'refused form' and by 'refused range', and change nothing.
A reply has at most one line of refusal, so those two, one behind the other, end it; they are kept back.
"""
import os
import signal
import subprocess
from collections import deque

from front.progress import Progress
from front.report import Report
from front.screen import write_whole

PROBE = b"?\nrows 999999999\n"
PROBED = (b"refused form\n", b"refused range\n")


class Dialogue:
    """The program, with pipes to it and from it. `is_over` says that it has ended, or was told to."""

    def __init__(self, program, words):
        # It has a process group of its own, so that Ctrl-C ends no commit.
        self.child = subprocess.Popen(
            [program, *words], stdin=subprocess.PIPE, stdout=subprocess.PIPE, bufsize=0, preexec_fn=os.setpgrp
        )
        self.is_over, self.commits, self.progress = False, 0, None
        self._come, self._rest = deque(), b""

    def exchange(self, line, take):
        """Sends a line, or none, hands each line of the reply on as it comes, and gives the lines of note in it."""
        self.send((b"" if line is None else line + b"\n") + PROBE)
        report, held = Report(), []
        self.progress = Progress(self.child.pid, lambda: self.commits)
        for reply in self._lines():
            if held and reply == PROBED[1]:
                break
            ready = held if reply == PROBED[0] else [*held, reply]
            held = [reply] if reply == PROBED[0] else []
            self._hand_on(ready, report, take)
        else:
            self._hand_on(held, report, take)
            self.close()
        self.progress.clear()
        self.commits += report.commits
        return report.noted

    def _hand_on(self, lines, report, take):
        for line in lines:
            self.progress.make_room(line)
            report.add(line)
            take(line)

    def _lines(self):
        """The lines that come, to the program's end."""
        while True:
            while self._come:
                yield self._come.popleft()
            self.progress.wait(self.child.stdout.fileno())
            piece = os.read(self.child.stdout.fileno(), 65536)
            if not piece:
                return
            *lines, self._rest = (self._rest + piece).split(b"\n")
            self._come.extend(it + b"\n" for it in lines)

    def send(self, content):
        """Sends bytes; where the program has ended they go nowhere."""
        try:
            write_whole(self.child.stdin.fileno(), content)
        except (OSError, ValueError):
            pass

    def interrupt(self):
        """Ends the program as Ctrl-C does."""
        self.child.send_signal(signal.SIGINT)

    def close(self):
        """Ends the script; the program ends when it comes to that."""
        self.is_over = True
        try:
            self.child.stdin.close()
        except OSError:
            pass

    def finish(self):
        """Waits for the program's end, and gives what it still wrote and its status."""
        rest = b"".join(self._come) + self._rest + self.child.stdout.read()
        return rest, self.child.wait()
