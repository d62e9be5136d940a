"""The outputs after each commit, with a mark on what changed."""

CHANGED, SAME = b"* ", b"  "


class Autoshow:
    """Whether the outputs are shown by themselves, and what they were when they were shown so before."""

    def __init__(self, has_colour):
        self.is_on, self.has_colour, self.before = False, has_colour, {}

    def marked(self, lines):
        """The lines of the outputs, each with its mark. The first time there is nothing that they could differ from."""
        now = {line.partition(b" = ")[0]: line for line in lines}
        marked = [self._marked(line, bool(self.before) and self.before.get(name) != line) for name, line in now.items()]
        self.before = now
        return b"".join(marked)

    def _marked(self, line, is_changed):
        if not is_changed:
            return SAME + line
        if not self.has_colour:
            return CHANGED + line
        return b"\033[1m" + CHANGED + line.rstrip(b"\n") + b"\033[0m\n"
