"""A file that the words name, looked at after the program did."""
import difflib
import os
import stat

from front.wording import listed

MOST_BYTES = 16777216


class Source:
    """A file's bytes, or why there are none. What isn't a plain file is left alone, since it can be read only once."""

    def __init__(self, name):
        self.name, self.data, self.why, self.more = name, None, None, []
        try:
            self._load(os.stat(name))
        except FileNotFoundError:
            self.why = "there is no such file" if name else "its name is empty"
            self.more = similar_names(name)
        except (OSError, ValueError) as error:
            self.why = (getattr(error, "strerror", None) or str(error)).lower()

    def _load(self, found):
        if stat.S_ISDIR(found.st_mode):
            self.why = "it is a folder"
        elif not stat.S_ISREG(found.st_mode):
            self.more.append(f"{self.name} is no plain file, so it can't be looked at again for a hint")
        elif found.st_size > MOST_BYTES:
            self.why = f"it has {found.st_size:,} bytes, and {MOST_BYTES:,} are the most"
        else:
            with open(self.name, "rb") as file:
                self.data = file.read(MOST_BYTES + 1)

    def line(self, number):
        """A line of it, from 1, without its line feed."""
        lines = (self.data or b"").split(b"\n", number)
        return lines[number - 1] if number <= len(lines) else b""


def similar_names(name):
    """Which files of similar names there are, or where the name was looked for."""
    folder, base = os.path.split(name)
    try:
        there = os.listdir(folder or ".")
    except OSError:
        return [f"there is no folder {folder} here" if folder else "this folder can't be read"]
    close = difflib.get_close_matches(base, there, 3, 0.75)
    if not close:
        stem = os.path.splitext(base)[0]
        close = sorted(it for it in there if stem and os.path.splitext(it)[0] == stem)[:3]
    if close:
        return [f"a similar name is there: {listed(os.path.join(folder, it) for it in close)}"]
    return [] if os.path.isabs(name) else [f"names are taken from the folder {os.getcwd()}"]
