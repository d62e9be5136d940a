"""What someone at a terminal sees: the prompt, keys, history, help, replies, hints and how it ends."""
import os
import random
import signal
import sys

import support
from support import Terminal

PROMPT = b"psac> "
WORK = b"mode=anew visited=0 rerun=0 inside=1 dropped=0 nodes=2 mods=0 links=1\r\n"
# The one block runs again, or nothing does.
AGAIN = b"mode=repair visited=2 rerun=1 inside=0 dropped=0 nodes=0 mods=0 links=0\r\n"
QUIET = b"mode=repair visited=0 rerun=0 inside=0 dropped=0 nodes=0 mods=0 links=0\r\n"
TWO = "func main(; out, same) {\n  read cell(0, 0) as x { write out = x * 2; write same = 1; }\n}\n"

# A program that is at work on a commit until the file `go` is there, but for the first FREE ones. It answers what the front
# asks behind each line.
SLOW = f"""#!{sys.executable}
import os, sys, time
free = int(os.environ.get("FREE", "0"))
for line in sys.stdin:
    word = line.split()[0]
    if word == "commit":
        open("at-work", "w").close()
        while free <= 0 and not os.path.exists("go"):
            time.sleep(0.02)
        free -= 1
        print("mode=anew visited=0", flush=True)
    elif word == "quit":
        break
    else:
        print("refused range" if word == "rows" else "refused form", flush=True)
"""


class Prompt(support.Case):
    """A session at a terminal, and what is typed there."""

    def setUp(self):
        super().setUp()
        self.save_double()

    def begin(self, *options, name="double.psac", **variables):
        variables.setdefault("XDG_STATE_HOME", self.folder)
        words = [support.LAUNCHER, "session", name, "cells.txt", *options]
        self.terminal = Terminal(self, words, self.folder, **variables)
        return self.terminal

    def at_prompt(self, *options, **variables):
        """Begins, and waits for the prompt."""
        self.begin(*options, **variables)
        return self.terminal.until(PROMPT)

    def reply(self, line):
        """Types a line, and gives what comes between it and the next prompt."""
        line = line if isinstance(line, bytes) else line.encode()
        self.terminal.type(line + b"\n")
        seen = support.without_progress(self.terminal.until(PROMPT))
        self.assertTrue(seen.startswith(line + b"\r\n"), seen)
        return seen[len(line) + 2 : -len(PROMPT)]

    def end(self):
        """Ends the session by Ctrl-D."""
        self.terminal.type(b"\x04")
        self.assertEqual(self.terminal.status(), 0)

    def history(self):
        return self.saved("psac/history").decode()


class Session(Prompt):
    def test_session(self):
        self.assertIn(b"double.psac over cells.txt, 1 row and 1 column\x1b[0m\r\n", self.at_prompt())
        self.assertEqual(self.reply("commit"), WORK)
        self.assertEqual(self.reply("show"), b"out = 42\r\n")
        self.assertEqual(self.reply("set 0 0 5"), b"")
        self.assertEqual(self.reply("# a comment"), b"")
        self.assertEqual(self.reply(""), b"")
        self.assertEqual(self.reply("show"), b"out = 42\r\n")
        self.assertEqual(self.reply("commit"), AGAIN)
        self.assertEqual(self.reply("show"), b"out = 10\r\n")
        self.terminal.type(b"quit\n")
        self.assertEqual(self.terminal.status(), 0)

    def test_refusals_are_shown_as_they_are(self):
        self.at_prompt()
        for line, wanted in (
            ("nonsense", b"refused form"),
            ("rows 999999999", b"refused range"),
            ("set 9 9 1", b"refused range"),
            ("rows 1", None),
            ("show ", b"refused form"),
            ("set 0 0", b"refused form"),
            ("rows 999999999", b"refused range"),
            ("show", b"none"),
            ("hold 0 out 9", b"refused range"),
            ("held 0", b"refused empty"),
            ("hold 0 out 0", None),
            ("held 0", b"none"),
            ("tree", b"none"),
        ):
            lines = self.reply(line).split(b"\r\n")[:-1]
            replies = [it for it in lines if not it.startswith(b"hint:")]
            self.assertEqual(replies, [wanted] if wanted else [], line)
            self.assertEqual(len(lines) > len(replies), wanted not in (None, b"none"), line)
        self.end()

    def test_replies_are_the_programs(self):
        # Lines by chance: what comes between the prompts is what a pipe gets.
        chance = random.Random(7)
        pieces = (
            "commit|show|rows 2|rows 9|rows 999999999|set 0 0 5|set 0 0 x|set 0 0|set 7 7 7|nonsense|show | show|tree|held 0"
            "|# no|set 1 0 -4"
        ).split("|")
        lines = [chance.choice(pieces) for _ in range(150)]
        self.at_prompt("--rows", "3", PSAC_HINTS="0")
        replies = b"".join(self.reply(line) for line in lines).replace(b"\r\n", b"\n")
        self.end()
        script = "".join(line + "\n" for line in lines).encode()
        options = ["session", "double.psac", "cells.txt", "--rows", "3"]
        self.assertEqual(replies, support.bare(options, self.folder, script)[1])

    def test_options_before_the_mode(self):
        words = [support.LAUNCHER, "--rows", "2", "session", "double.psac", "cells.txt"]
        for hints in ("0", "1"):
            self.terminal = Terminal(self, words, self.folder, XDG_STATE_HOME=self.folder, PSAC_HINTS=hints)
            self.terminal.until(PROMPT)
            self.assertEqual(self.reply("rows 2"), b"")
            self.end()

    def test_hints_know_what_was_set(self):
        self.at_prompt("--rows", "3")
        self.reply("set 0 0 95.5")
        seen = self.reply("commit")
        self.assertTrue(seen.startswith(b"fault kind line 3\r\nhint: double.psac, line 3:\r\n"), seen)
        self.assertIn(b'hint:   row 0, column 0: "95.5", a fraction', seen)
        self.reply("rows 0")
        self.assertIn(b"fault kind line 3", self.reply("commit"))
        self.reply("rows 1")
        self.assertIn(b"hint:   row 0, column 0: nil, an empty cell", self.reply("commit"))
        self.assertIn(b"hint: there is no command comit; there is commit\r\n", self.reply("comit"))
        self.assertIn(b"hint: that place holds nothing", self.reply("held 0"))
        self.assertIn(b"there is room for 3 rows", self.reply("rows 4"))
        self.end()

    def test_help(self):
        self.at_prompt()
        for line in ("help", "?"):
            seen = self.reply(line)
            for part in (b"set R C FIELD", b"rows N", b"commit", b"show", b"tree", b"quit", b"autoshow", b"Ctrl-C"):
                self.assertIn(part, seen)
            self.assertNotIn(b"refused", seen)
            self.assertIn(b"hold H out I", seen)
        for line in ("help commit", "? commit"):
            self.assertIn(b"commit: puts what is staged into the grid", self.reply(line))
        self.assertIn(b"There is no command 'comit'. There is commit.", self.reply("help comit"))
        self.assertIn(b"hold H snd G", self.reply("help hold"))
        self.end()

    def test_colour(self):
        # Only what the front says itself has colour, and nothing where it isn't wanted.
        self.assertIn(b"\x1b[2m", self.at_prompt())
        self.end()
        for variables in ({"NO_COLOR": "1"}, {"TERM": "dumb"}):
            self.assertNotIn(b"\x1b[", self.at_prompt(**variables))
            self.end()

    def test_no_hints(self):
        self.at_prompt(PSAC_HINTS="0")
        self.assertEqual(self.reply("nonsense"), b"refused form\r\n")
        self.end()

    def test_bytes_that_are_not_utf8(self):
        self.at_prompt()
        self.terminal.type("set 0 0 é\n".encode())
        self.terminal.until(PROMPT)
        self.terminal.type(b"set 0 0 \xff\n")
        self.assertIn(b"refused utf8", self.terminal.until(PROMPT))
        self.end()

    def test_a_program_that_is_refused(self):
        self.save("cut.psac", "func main(; out) { write out = -1; }")
        it = self.begin(name="cut.psac")
        self.assertEqual(it.status(), 4)
        self.assertTrue(it.shown.startswith(b"program line 1 column 32 syntax\r\nhint: cut.psac, line 1, column 32:\r\n"), it.shown)
        self.assertNotIn(PROMPT, it.shown)
        it = self.begin(name="missing.psac")
        self.assertEqual(it.status(), 3)
        wanted = b"hint: the program missing.psac could not be loaded: there is no such file\r\n"
        self.assertTrue(it.shown.startswith(wanted), it.shown)

    def test_errors_elsewhere(self):
        # The prompt is there, and the hints go nowhere, where standard error is no terminal.
        words = ["sh", "-c", f"'{support.LAUNCHER}' session double.psac cells.txt 2>errors"]
        self.terminal = Terminal(self, words, self.folder, XDG_STATE_HOME=self.folder)
        self.terminal.until(PROMPT)
        self.assertEqual(self.reply("nonsense"), b"refused form\r\n")
        self.end()
        self.assertEqual(self.saved("errors"), b"")

    def test_hang_up(self):
        # The program ends with the terminal.
        self.at_prompt()
        program = support.wait_for(lambda: support.program_below(self.terminal.pid), "the program runs")
        self.terminal.close()
        self.terminal.wait()
        support.wait_for(lambda: not os.path.exists(f"/proc/{program}"), "the program ends")


class Autoshow(Prompt):
    def setUp(self):
        super().setUp()
        self.save("double.psac", TWO)

    def test_outputs_follow_commits(self):
        self.at_prompt(NO_COLOR="1", PSAC_HINTS="0")
        self.assertEqual(self.reply("commit"), WORK)
        self.assertIn(b"* marks those that changed", self.reply("autoshow"))
        self.reply("set 0 0 5")
        self.assertEqual(self.reply("commit"), AGAIN + b"* out = 10\r\n  same = 1\r\n")
        self.assertEqual(self.reply("commit"), QUIET + b"  out = 10\r\n  same = 1\r\n")
        # What show answers is the program's own still.
        self.assertEqual(self.reply("show"), b"out = 10\r\nsame = 1\r\n")
        # A commit that doesn't end well shows nothing; the next one is compared with what was shown last.
        self.reply("set 0 0 x")
        self.assertEqual(self.reply("commit"), b"fault kind line 2\r\n")
        self.reply("set 0 0 6")
        self.assertEqual(self.reply("commit"), WORK + b"* out = 12\r\n  same = 1\r\n")
        self.assertEqual(self.reply("autoshow"), b"autoshow is off.\r\n")
        self.assertEqual(self.reply("commit"), QUIET)
        self.end()

    def test_words(self):
        self.at_prompt(NO_COLOR="1")
        self.assertEqual(self.reply("autoshow off"), b"autoshow is off.\r\n")
        for _ in range(2):
            self.assertTrue(self.reply("autoshow on").startswith(b"autoshow is on"))
        self.assertEqual(self.reply("commit"), WORK + b"  out = 42\r\n  same = 1\r\n")
        # Turned on once more, it shows what is there.
        self.assertTrue(self.reply("autoshow on").endswith(b"\r\n  out = 42\r\n  same = 1\r\n"))
        self.assertIn(b"The form is: autoshow", self.reply("autoshow maybe"))
        self.end()

    def test_mark_in_colour(self):
        self.at_prompt()
        self.reply("autoshow")
        self.reply("commit")
        self.reply("set 0 0 5")
        self.assertEqual(self.reply("commit"), AGAIN + b"\x1b[1m* out = 10\x1b[0m\r\n  same = 1\r\n")
        self.end()


class Keys(Prompt):
    def drop_line(self):
        """Presses Ctrl-C until the prompt comes: Python doesn't see one that comes while readline is at work on a key."""
        for _ in range(support.PATIENCE):
            self.terminal.type(b"\x03")
            try:
                self.terminal.until(PROMPT, 1)
                break
            except AssertionError:
                pass
        # Each Ctrl-C that came late gave a prompt of its own: what follows begins behind them.
        self.terminal.type(b"# here\n")
        self.terminal.until(b"# here\r\n")
        self.terminal.until(PROMPT)

    def test_keys(self):
        self.at_prompt()
        self.terminal.type(b"com\t")
        self.terminal.until(b"commit")
        self.terminal.type(b"\n")
        self.assertIn(WORK, self.terminal.until(PROMPT))
        # A line in the middle of which something is changed: 'shw' to 'show'.
        self.terminal.type(b"shw\x02o\n")
        self.assertIn(b"out = 42", self.terminal.until(PROMPT))
        # Ctrl-C drops the line.
        self.terminal.type(b"set 0 0 7")
        self.terminal.until(b"set 0 0 7")
        self.drop_line()
        self.reply("commit")
        self.assertEqual(self.reply("show"), b"out = 42\r\n")
        # Up twice: the commit before the show.
        self.terminal.type(b"\x1b[A\x1b[A\n")
        self.assertIn(QUIET, self.terminal.until(PROMPT))
        self.end()
        self.assertEqual(self.history(), "commit\nshow\n# here\ncommit\nshow\ncommit\n")
        self.assertEqual(os.stat(f"{self.folder}/psac/history").st_mode & 0o77, 0)
        # The next session has that history.
        self.at_prompt()
        self.terminal.type(b"\x1b[A\n")
        self.assertIn(WORK, self.terminal.until(PROMPT))
        self.end()

    def test_all_candidates(self):
        self.at_prompt()
        self.terminal.type(b"\t\t")
        seen = self.terminal.until(PROMPT)
        for name in (b"autoshow", b"commit", b"held", b"help", b"hold", b"quit", b"rows", b"set", b"show", b"tree"):
            self.assertIn(name, seen)
        self.terminal.type(b"help se\t\n")
        self.assertIn(b"stages a value", self.terminal.until(PROMPT))
        self.end()

    def test_without_a_home(self):
        # Where the history can't be kept, the session goes on without it.
        self.at_prompt(XDG_STATE_HOME="/dev/null/nowhere")
        self.assertEqual(self.reply("commit"), WORK)
        self.end()

    def test_pasted_lines(self):
        self.at_prompt()
        self.terminal.type(b"\x1b[200~commit\nshow\nset 0 0 5\ncommit\nshow\x1b[201~\n")
        seen = self.terminal.until(b"out = 10")
        self.assertIn(b"out = 42", seen)
        self.terminal.until(PROMPT)
        self.end()

    def test_ctrl_c_at_work(self):
        self.at_prompt(PSAC_PROGRAM=self.save_command("slow", SLOW))
        self.terminal.type(b"commit\n")
        support.wait_for(lambda: self.is_saved("at-work"), "the program is at work")
        self.terminal.type(b"\x03")
        self.terminal.until(b"hint: the program is at work; Ctrl-C once more ends the session")
        self.terminal.type(b"\x03")
        self.assertEqual(self.terminal.status(), -signal.SIGINT)


class LongRun(Prompt):
    """The line that says how far a run is, once that takes two seconds."""

    def setUp(self):
        super().setUp()
        self.program = self.save_command("slow", SLOW)

    def test_at_the_prompt(self):
        self.at_prompt(PSAC_PROGRAM=self.program)
        self.terminal.type(b"commit\n")
        self.terminal.until(b"commit\r\n")
        self.assertRegex(self.terminal.until(b" answered"), rb"^\rpsac: [0-9]+ s, [0-9]+ MiB of memory, 0 commits answered$")
        self.save("go", "")
        self.assertRegex(self.terminal.until(PROMPT), rb"\r {30,}\rmode=anew visited=0\r\npsac> $")
        self.assertEqual(self.reply("commit"), b"mode=anew visited=0\r\n")
        self.end()

    def shown(self, command, mark, **variables):
        """Runs a command at a terminal. Once this was seen, the program goes on. Gives what came before and behind."""
        it = Terminal(self, ["sh", "-c", command], self.folder, PSAC_PROGRAM=self.program, **variables)
        before = it.until(mark)
        self.save("go", "")
        self.assertEqual(it.status(), 0)
        return before, it.seen[len(before) :]

    def test_a_script(self):
        # The first commit is answered at once, and the second one takes long.
        self.save("script", "nonsense\ncommit\ncommit\n")
        command = f"'{support.LAUNCHER}' session double.psac cells.txt <script"
        before, behind = self.shown(command, b"MiB of memory, 1 commit answered", FREE="1")
        self.assertTrue(support.without_progress(before).startswith(b"refused form\r\nmode=anew visited=0\r\n\rpsac: "), before)
        self.assertRegex(behind, rb"^(.|\r)*\r {30,}\rmode=anew visited=0\r\n(.|[\r\n])*hint: ")

    def test_report_elsewhere(self):
        self.save("script", "commit\n")
        command = f"'{support.LAUNCHER}' session double.psac cells.txt <script >report"
        before, behind = self.shown(command, b" answered")
        self.assertRegex(before, rb"^\rpsac: [0-9]+ s, [0-9]+ MiB of memory, 0 commits answered$")
        self.assertRegex(behind, rb"\r {30,}\r$")
        self.assertEqual(self.saved("report"), b"mode=anew visited=0\n")

    def test_once(self):
        slow = "import os, time\nwhile not os.path.exists('go'):\n    time.sleep(0.02)\nprint('out = 1')\n"
        self.program = self.save_command("slow", f"#!{sys.executable}\n{slow}")
        before, behind = self.shown(f"'{support.LAUNCHER}' once double.psac cells.txt", b"MiB of memory")
        self.assertRegex(before, rb"^\rpsac: [0-9]+ s, [0-9]+ MiB of memory$")
        self.assertRegex(behind, rb"^(.|\r)*\r {20,}\rout = 1\r\n$")
        self.assertNotIn(b"answered", behind)

    def test_only_at_a_terminal(self):
        slow = "import time\ntime.sleep(3)\nprint('out = 1')\n"
        program = self.save_command("slow", f"#!{sys.executable}\n{slow}")
        got = support.launched(["once", "double.psac", "cells.txt"], self.folder, PSAC_HINTS="1", PSAC_PROGRAM=program)
        self.assertEqual(got, (0, b"out = 1\n", b""))


class Once(support.Case):
    def setUp(self):
        super().setUp()
        self.save_double()

    def at_terminal(self, words, **variables):
        return Terminal(self, words, self.folder, **variables)

    def test_hints(self):
        self.save("cut.psac", "func main(; out) { write out = -1; }")
        it = self.at_terminal([support.LAUNCHER, "once", "cut.psac", "cells.txt"])
        self.assertEqual(it.status(), 4)
        self.assertIn(b"program line 1 column 32 syntax\r\nhint: ", it.shown)
        it = self.at_terminal([support.LAUNCHER, "once", "cut.psac", "cells.txt"], PSAC_HINTS="0")
        self.assertEqual(it.status(), 4)
        self.assertEqual(it.shown, b"program line 1 column 32 syntax\r\n")

    def test_only_standard_error_there(self):
        psac = f"'{support.LAUNCHER}'"
        session = f"{psac} session double.psac cells.txt </dev/null >report; echo status $?"
        it = self.at_terminal(["sh", "-c", f"{session}; {psac} once cells.txt double.psac >report"])
        it.status()
        self.assertEqual(it.shown.split(b"\r\n")[0], b"status 0")
        self.assertIn(b"hint: the two files look swapped", it.shown)
        self.assertEqual(self.saved("report"), b"program line 1 column 1 syntax\n")

    def test_a_script_in_a_pipe_has_no_prompt(self):
        it = self.at_terminal(["sh", "-c", f"printf 'commit\\nshow\\n' | '{support.LAUNCHER}' session double.psac cells.txt"])
        self.assertEqual(it.status(), 0)
        self.assertEqual(it.shown, WORK + b"out = 42\r\n")

    def test_ctrl_c_ends_a_run(self):
        # A run that reads its input from the terminal, and a session that does.
        for mode in ("once", "session"):
            it = self.at_terminal([support.LAUNCHER, mode, "double.psac", "/dev/tty"])
            support.wait_for(lambda: support.program_below(it.pid), "the program runs")
            it.type(b"\x03")
            self.assertEqual(it.status(), -signal.SIGINT)
