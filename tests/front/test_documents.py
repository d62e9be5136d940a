"""The sessions at a terminal that README.md and the pages of docs/ show, played at one."""
import os
import re

import support

PROMPT = "psac> "


def sessions():
    """The fenced blocks that show a session: the page and line, and their text."""
    pages = ["README.md", *(f"docs/{it}" for it in sorted(os.listdir(f"{support.ROOT}/docs")) if it.endswith(".md"))]
    for page in pages:
        with open(f"{support.ROOT}/{page}", encoding="utf-8") as file:
            text = file.read()
        for found in re.finditer(r"^```session\n(.*?)^```$", text, re.M | re.S):
            yield f"{page}, line {text.count(chr(10), 0, found.start()) + 1}", found[1]


class Documents(support.Case):
    def play(self, text):
        """Runs the command of a block's first line, types what stands behind its prompts, and gives what is seen."""
        command, _, shown = text.partition("\n")
        self.assertTrue(command.startswith("$ ") and shown.endswith(f"{PROMPT}quit\n"), "a command, and quit at the end")
        words = ["sh", "-c", command[2:]]
        terminal = support.Terminal(self, words, support.ROOT, NO_COLOR="1", XDG_STATE_HOME=self.folder)
        for line in re.findall(rf"^{PROMPT}(.*)\n", shown, re.M):
            terminal.until(PROMPT.encode())
            terminal.type(line.encode() + b"\n")
        self.assertEqual(terminal.status(), 0)
        return f"{command}\n" + terminal.shown.decode().replace("\r\n", "\n")

    def test_sessions(self):
        blocks = list(sessions())
        self.assertTrue(any(place.startswith("README.md") for place, _ in blocks))
        for place, text in blocks:
            with self.subTest(place):
                self.assertEqual(self.play(text), text)
