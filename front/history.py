"""The lines that were typed in earlier sessions and in this one."""
import os

try:
    import readline
except ImportError:
    readline = None

_MOST_LINES = 1000


def history_file():
    """Where the lines of earlier sessions are kept."""
    state = os.environ.get("XDG_STATE_HOME", "")
    if not os.path.isabs(state):
        state = os.path.join(os.path.expanduser("~"), ".local", "state")
    return os.path.join(state, "psac", "history")


class History:
    """The history. Each line is saved as it is entered; where that fails, the session goes on without."""

    def __init__(self):
        self.file, self.length = history_file(), 0
        if readline is None:
            return
        readline.set_history_length(_MOST_LINES)
        try:
            os.makedirs(os.path.dirname(self.file), 0o700, exist_ok=True)
            os.close(os.open(self.file, os.O_CREAT | os.O_WRONLY, 0o600))
            readline.read_history_file(self.file)
        except OSError:
            self.file = None
        self.length = readline.get_current_history_length()

    def save(self):
        """Saves the line that was entered last, where it is a new one."""
        if readline is None or self.file is None:
            return
        length = readline.get_current_history_length()
        if length > self.length:
            try:
                self._append(length - self.length)
            except OSError:
                self.file = None
        self.length = length

    def _append(self, count):
        if hasattr(readline, "append_history_file"):
            readline.append_history_file(count, self.file)
        else:
            readline.write_history_file(self.file)
