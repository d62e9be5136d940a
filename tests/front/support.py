"""What the tests share: where things stand, and how they run through pipes and through a terminal."""
import os
import pty
import re
import select
import shutil
import signal
import subprocess
import sys
import tempfile
import time
import unittest

HERE = os.path.dirname(os.path.abspath(__file__))
ROOT = os.path.dirname(os.path.dirname(HERE))
PROGRAM = os.path.abspath(os.environ.get("PSAC_PROGRAM") or f"{ROOT}/crates/psac/out/psac")
LAUNCHER = f"{ROOT}/psac"
# How many seconds a test waits for what has to come, also on a machine with much else to do.
PATIENCE = 180
sys.path.insert(0, ROOT)

DOUBLE = "func main(; out) {\n  read cell(0, 0) as x {\n    write out = x * 2;\n  }\n}\n"
# The line about a long run, from where it is first shown to where it is taken away.
PROGRESS = re.compile(rb"(?:\rpsac: [^\r\n]*)+\r +\r")
NOT_KEPT = "PSAC_HINTS", "NO_COLOR", "XDG_STATE_HOME", "PYTHONHOME", "PYTHONPATH"


def environment(**more):
    """The variables of a run: those of the tests without the front's own, and these."""
    kept = {name: it for name, it in os.environ.items() if name not in NOT_KEPT}
    kept.update({"PSAC_PROGRAM": PROGRAM, "PSAC_PYTHON": sys.executable, "TERM": "xterm", "LC_ALL": "C.UTF-8"})
    kept.update(more)
    return kept


def ran(words, **how):
    """Runs a command with its streams in pipes: status, standard output and standard error."""
    it = subprocess.run(words, stdout=subprocess.PIPE, stderr=subprocess.PIPE, timeout=PATIENCE, **how)
    return it.returncode, it.stdout, it.stderr


def launched(words, folder=None, given=b"", **variables):
    """Runs the launcher through pipes."""
    return ran([LAUNCHER, *words], cwd=folder, input=given, env=environment(**variables))


def bare(words, folder=None, given=b""):
    """Runs the program itself through pipes."""
    return ran([PROGRAM, *words], cwd=folder, input=given)


def without_progress(seen):
    """What was seen but for the line about a long run, which also a short one has on a machine with much else to do."""
    return PROGRESS.sub(b"", seen)


def wait_for(is_so, what):
    """Waits until something is so, and gives what says that."""
    limit = time.monotonic() + PATIENCE
    while time.monotonic() < limit:
        found = is_so()
        if found:
            return found
        time.sleep(0.02)
    raise AssertionError(f"it never came that {what}")


def processes_below(process):
    """The processes that a process started, and those that they started."""
    parents = {}
    for name in filter(str.isdigit, os.listdir("/proc")):
        try:
            with open(f"/proc/{name}/stat", "rb") as file:
                parents.setdefault(int(file.read().rpartition(b")")[2].split()[1]), []).append(int(name))
        except OSError:
            pass
    found = [process]
    for it in found:
        found.extend(parents.get(it, []))
    return found


def program_below(process):
    """The process that runs the program, if there is one yet, among a process and those below it."""
    for it in processes_below(process):
        try:
            if os.path.samefile(f"/proc/{it}/exe", PROGRAM):
                return it
        except OSError:
            pass
    return None


class Case(unittest.TestCase):
    """A test with a folder of its own."""

    maxDiff = None

    def setUp(self):
        self.folder = tempfile.mkdtemp(prefix="psac-front-")
        self.addCleanup(shutil.rmtree, self.folder)

    def save(self, name, text):
        """Writes a file, and gives its name."""
        with open(f"{self.folder}/{name}", "wb") as file:
            file.write(text if isinstance(text, bytes) else text.encode())
        return name

    def save_command(self, name, text):
        """Writes a file that can be run, and gives its whole name."""
        self.save(name, text)
        os.chmod(f"{self.folder}/{name}", 0o755)
        return f"{self.folder}/{name}"

    def saved(self, name):
        """What a file holds."""
        with open(f"{self.folder}/{name}", "rb") as file:
            return file.read()

    def is_saved(self, name):
        return os.path.exists(f"{self.folder}/{name}")

    def save_double(self):
        """Writes the program that doubles one cell, and its input."""
        self.save("double.psac", DOUBLE)
        self.save("cells.txt", "21\n")

    def go_into(self, folder):
        """Makes this the present folder for the rest of the test."""
        os.chdir(folder)
        self.addCleanup(os.chdir, ROOT)


class Terminal:
    """A command that runs at a pseudo-terminal, or with some of its streams there."""

    def __init__(self, case, words, folder, **variables):
        self.seen, self.rest, self.is_waited_for = b"", b"", False
        self.pid, self.end = pty.fork()
        if self.pid == 0:
            os.chdir(folder)
            os.execvpe(words[0], words, environment(**variables))
        case.addCleanup(self.stop)

    def until(self, mark, patience=PATIENCE):
        """Reads up to a mark, or to the end where it is None, and gives what came. What is behind it is for the next time."""
        limit = time.monotonic() + patience
        while mark is None or mark not in self.rest:
            if time.monotonic() > limit:
                raise AssertionError(f"no {mark!r} came: {self.rest!r}")
            if select.select([self.end], [], [], 0.2)[0] and not self._read():
                if mark is None:
                    break
                raise AssertionError(f"it ended without {mark!r}: {self.rest!r}")
        end = len(self.rest) if mark is None else self.rest.index(mark) + len(mark)
        come, self.rest = self.rest[:end], self.rest[end:]
        self.seen += come
        return come

    def _read(self):
        """Reads what is there, and says whether that is anything."""
        try:
            piece = os.read(self.end, 65536)
        except OSError:
            piece = b""
        self.rest += piece
        return bool(piece)

    def type(self, text):
        os.write(self.end, text)

    @property
    def shown(self):
        """What was seen but for the line about a long run."""
        return without_progress(self.seen)

    def status(self):
        """Reads to the end, and gives the exit status, below 0 where a signal ended it."""
        self.until(None)
        self.close()
        return self.wait()

    def close(self):
        os.close(self.end)
        self.end = None

    def stop(self):
        """Ends it, where it hasn't ended."""
        if not self.is_waited_for:
            os.kill(self.pid, signal.SIGKILL)
            self.wait()
        if self.end is not None:
            self.close()

    def wait(self):
        """Waits for its end, once."""
        _, code = os.waitpid(self.pid, 0)
        self.is_waited_for = True
        return os.WEXITSTATUS(code) if os.WIFEXITED(code) else -os.WTERMSIG(code)
