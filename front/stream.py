"""Runs the program with its report passed through as it comes, and with signals handed on."""
import errno
import os
import signal
import subprocess

from front.progress import Progress
from front.screen import write_whole

_PASSED_ON = ("SIGINT", "SIGQUIT", "SIGTERM", "SIGHUP", "SIGUSR1", "SIGUSR2", "SIGALRM")
OUTPUT_FAILED = 7


class Run:
    """One run: after `carry_out`, `status` is the program's, below 0 where a signal ended it."""

    def __init__(self, program, words, report, has_commits=False, is_shown=True):
        self.program, self.words, self.report = program, words, report
        self.has_commits, self.is_shown = has_commits, is_shown
        self.child, self.status, self.is_pipe_closed = None, None, False
        self._early = []

    def carry_out(self):
        """Starts the program and copies its standard output, byte for byte."""
        taken = self._take_signals()
        self.child = subprocess.Popen([self.program, *self.words], stdout=subprocess.PIPE, bufsize=0)
        for number in self._early:
            self.child.send_signal(number)
        is_whole = self._copy()
        self.child.stdout.close()
        self.status = self.child.wait()
        for number in taken:
            signal.signal(number, signal.SIG_DFL)
        if not is_whole and self.status >= 0:
            self.status = OUTPUT_FAILED

    def _take_signals(self):
        """Hands these signals on to the program from now on, but for those that are ignored here."""
        numbers = [getattr(signal, name) for name in _PASSED_ON]
        taken = [it for it in numbers if signal.getsignal(it) != signal.SIG_IGN]
        for number in taken:
            signal.signal(number, self._pass_on)
        return taken

    def _pass_on(self, number, _frame):
        if self.child is None:
            self._early.append(number)
        elif self.child.returncode is None:
            self.child.send_signal(number)

    def _copy(self):
        """Copies the report to its end, and says whether all of it could be written."""
        source = self.child.stdout.fileno()
        progress = Progress(self.child.pid, self._commits, self.is_shown)
        try:
            while True:
                progress.wait(source)
                piece = os.read(source, 65536)
                if not piece:
                    return True
                progress.make_room(piece)
                if not self._write(piece):
                    return False
                self.report.add(piece)
        finally:
            progress.clear()

    def _write(self, piece):
        try:
            write_whole(1, piece)
        except OSError as error:
            self.is_pipe_closed = error.errno == errno.EPIPE
            return False
        return True

    def _commits(self):
        return self.report.commits if self.has_commits else None


def end_as(status):
    """Ends as the program did: with its status, or by the signal that ended it."""
    if status < 0:
        _keep_no_core()
        signal.signal(-status, signal.SIG_DFL)
        os.kill(os.getpid(), -status)
        status = 128 - status
    os._exit(status)


def _keep_no_core():
    try:
        import resource

        resource.setrlimit(resource.RLIMIT_CORE, (0, resource.getrlimit(resource.RLIMIT_CORE)[1]))
    except (ImportError, OSError, ValueError):
        pass
