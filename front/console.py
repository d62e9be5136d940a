"""An interactive session: a prompt, line editing, history, completion and help, and the program's replies as they come."""
import signal
import sys

from front import commands, hints
from front.autoshow import Autoshow
from front.dialogue import Dialogue
from front.history import History, readline
from front.screen import has_colour, short, write_whole
from front.stream import OUTPUT_FAILED
from front.wording import counted

PROMPT = "psac> "


class Console:
    """The session with one program. `run` gives its status, below 0 where a signal ended it."""

    def __init__(self, program, words, request, has_hints):
        self.words, self.request, self.has_hints = words, request, has_hints
        self.has_colour = has_colour(1)
        self.autoshow = Autoshow(self.has_colour)
        self.cells, self.is_failed, self.was_interrupted = None, False, False
        self.own_commands = {"help": self.help, "?": self.help, "autoshow": self.switch_autoshow}
        self.dialogue = Dialogue(program, words)
        signal.signal(signal.SIGINT, self.interrupt)

    def run(self):
        """Reads lines and shows their replies to the end."""
        noted = self.dialogue.exchange(None, self.show)
        if self.dialogue.is_over:
            return self.finish(noted)
        self.cells = hints.cells_of(self.request)
        self.greet()
        self.set_up_keys()
        history = History()
        while not self.dialogue.is_over:
            for line in self.read_lines(history):
                self.take(line)
                if self.dialogue.is_over:
                    break
        return self.finish([])

    def read_lines(self, history):
        """What is entered at the prompt: one line, or those that were pasted."""
        try:
            text = self.read_line()
        except (EOFError, OSError):
            self.show(b"\n")
            return ["quit"]
        except KeyboardInterrupt:
            self.show(b"\n")
            return []
        history.save()
        return text.split("\n")

    def read_line(self):
        """A line from the terminal. Only here Ctrl-C drops what is typed."""
        signal.signal(signal.SIGINT, signal.default_int_handler)
        try:
            return input(PROMPT)
        finally:
            signal.signal(signal.SIGINT, self.interrupt)

    def take(self, line):
        """Answers one line, by the front or by the program."""
        words = line.split()
        if not line or line.startswith("#"):
            return
        if words and words[0] in self.own_commands:
            self.own_commands[words[0]](words[1:])
            return
        content = line.encode(sys.stdin.encoding or "utf-8", "surrogateescape")
        if content == b"quit":
            self.dialogue.send(b"quit\n")
            self.dialogue.close()
            return
        self.ask(line, content)

    def ask(self, line, content):
        """Has the program answer a line, and says what there is to say besides."""
        self.was_interrupted = False
        noted = self.dialogue.exchange(content, self.show)
        if self.dialogue.is_over:
            return
        self.follow(content, noted)
        for it in noted:
            self.hint(lambda: self.on_reply(line, it))
        if content == b"commit" and not noted and self.autoshow.is_on:
            self.show_outputs()

    def follow(self, content, noted):
        """Does to the grid that hints look at what the program does to its own."""
        if self.cells is None:
            return
        if content == b"commit":
            self.cells.commit()
        elif not noted:
            self.cells.stage(content)

    def on_reply(self, line, noted):
        """The hints on the reply to a line."""
        if noted == "refused form":
            return [commands.why_refused(line)]
        if noted == "refused range" and self.cells is not None:
            return [hints.range_of(self.cells)]
        return hints.on_line(self.request, noted, lambda: self.cells)

    def help(self, words):
        """Answers 'help' and '?'."""
        self.show(commands.help_on(words).encode())

    def switch_autoshow(self, words):
        """Answers 'autoshow'. Where it is on from now on, the present outputs are what later ones are compared with."""
        if words not in ([], ["on"], ["off"]):
            self.show(b"The form is: autoshow, autoshow on or autoshow off.\n")
            return
        self.autoshow.is_on = words == ["on"] or not words and not self.autoshow.is_on
        self.show(commands.AUTOSHOW[self.autoshow.is_on].encode())
        if self.autoshow.is_on:
            self.autoshow.before = {}
            self.show_outputs()

    def show_outputs(self):
        """Shows the outputs of the last commit with marks, where there are some."""
        lines = []
        self.dialogue.exchange(b"show", lines.append)
        if lines != [b"none\n"]:
            self.show(self.autoshow.marked(lines))

    def show(self, content):
        """Writes to standard output. Where that fails the session ends."""
        try:
            write_whole(1, content)
        except OSError:
            self.is_failed = True
            self.dialogue.close()

    def hint(self, make):
        """Says the hints that this makes, where hints are wanted."""
        if self.has_hints:
            hints.say(make)

    def interrupt(self, _number, _frame):
        """Ctrl-C while the program is at work: the first one is told, the second one ends it."""
        if self.was_interrupted:
            self.dialogue.interrupt()
            return
        self.was_interrupted = True
        if self.dialogue.progress is not None:
            self.dialogue.progress.clear()
        self.hint(lambda: ["the program is at work; Ctrl-C once more ends the session"])

    def finish(self, noted):
        """Waits for the program's end, and gives its status."""
        rest, status = self.dialogue.finish()
        if rest:
            self.show(rest)
        if self.is_failed and status >= 0:
            status = OUTPUT_FAILED
        if status > 0:
            self.hint(lambda: hints.after(self.words, noted, status))
        return status

    def greet(self):
        """Says over what the session runs, and how to go on."""
        grid = ""
        if self.cells is not None:
            grid = f", {counted(self.cells.rows, 'row')} and {counted(self.cells.cols, 'column')}"
        files = f"{short(self.request.program)} over {short(self.request.input)}"
        for line in (f"{files}{grid}", "'help' lists the commands, Ctrl-D ends the session"):
            self.show(f"\033[2m{line}\033[0m\n".encode() if self.has_colour else f"{line}\n".encode())

    def set_up_keys(self):
        """Has Tab complete commands."""
        sys.stdin.reconfigure(errors="surrogateescape")
        if readline is None:
            return
        readline.set_completer_delims(" ")
        readline.set_completer(self.complete)
        is_libedit = "libedit" in (readline.__doc__ or "")
        readline.parse_and_bind("bind ^I rl_complete" if is_libedit else "tab: complete")

    def complete(self, prefix, number):
        """What readline asks for: one after the other, what the word at the cursor may become."""
        before = readline.get_line_buffer()[: readline.get_begidx()].split()
        found = commands.candidates(before, prefix)
        return found[number] if number < len(found) else None
