"""What pipes see: the program's bytes and status, and nothing on standard error."""
import glob
import os
import signal
import subprocess
import sys

import support


class Pipes(support.Case):
    def setUp(self):
        super().setUp()
        self.save_double()

    def both(self, words, folder=None, given=b""):
        """Holds the launcher, without and with hints, to the program itself."""
        status, output, errors = support.bare(words, folder, given)
        self.assertEqual(support.launched(words, folder, given), (status, output, b""), words)
        hinted = support.launched(words, folder, given, PSAC_HINTS="1")
        self.assertEqual(hinted[:2], (status, output), words)
        for line in hinted[2].splitlines():
            self.assertTrue(line.startswith(b"hint:"), line)
        return status, output, hinted[2]

    def session(self, hints):
        """A session with pipes to it and from it."""
        words = [support.LAUNCHER, "session", "double.psac", "cells.txt"]
        variables = support.environment(PSAC_HINTS=hints)
        it = subprocess.Popen(words, cwd=self.folder, stdin=subprocess.PIPE, stdout=subprocess.PIPE, env=variables, bufsize=0)
        self.addCleanup(it.stdout.close)
        self.addCleanup(it.stdin.close)
        return it

    def test_examples(self):
        folders = sorted(glob.glob(f"{support.ROOT}/examples/*/"))
        self.assertTrue(folders)
        for folder in folders:
            (name,) = (os.path.basename(it) for it in glob.glob(f"{folder}input.*"))
            options, mode = [], "session"
            if os.path.exists(f"{folder}mode.txt"):
                with open(f"{folder}mode.txt") as file:
                    mode = file.read().strip()
            if os.path.exists(f"{folder}options.txt"):
                with open(f"{folder}options.txt") as file:
                    options = file.read().split()
            with open(f"{folder}script.txt", "rb") as script, open(f"{folder}output.txt", "rb") as wanted:
                status, output, _ = self.both([mode, "program.psac", name, *options], folder, script.read())
                self.assertEqual((status, output), (0, wanted.read()), folder)
            self.both(["once", "program.psac", name, *options], folder)

    def test_statuses(self):
        self.save("races.psac", "func main(; a) { }")
        self.save("ragged.csv", "1,2\n3\n")
        for words, wanted in (
            ("once double.psac cells.txt", 0),
            ("once double.psac", 2),
            ("", 2),
            ("bench double.psac 4x1", 0),
            ("bench double.psac cells.txt", 2),
            ("bench missing.psac 4x1", 3),
            ("once double.psac missing.txt", 3),
            ("once races.psac cells.txt", 4),
            ("once cells.txt double.psac", 4),
            ("once double.psac ragged.csv", 5),
            ("once double.psac cells.txt --rows=5 --workers 1", 0),
            ("once double.psac cells.txt --help", 2),
            ("session double.psac cells.txt", 0),
        ):
            self.assertEqual(self.both(words.split(), self.folder)[0], wanted, words)

    def test_large_output(self):
        self.save("copy.psac", "func main(; out) { read cell(0, 0) as x { write out = x; } }")
        self.save("long.txt", "x" * 100000 + "\n")
        script = b"commit\n" + b"show\n" * 20
        _, output, _ = self.both(["session", "copy.psac", "long.txt"], self.folder, script)
        self.assertGreater(len(output), 2000000)

    def test_replies_come_at_once(self):
        for hints in ("0", "1"):
            it = self.session(hints)
            for mode in (b"mode=anew", b"mode=repair", b"mode=repair"):
                it.stdin.write(b"commit\n")
                self.assertTrue(it.stdout.readline().startswith(mode))
            it.stdin.close()
            self.assertEqual(it.wait(support.PATIENCE), 0)

    def test_output_that_fails(self):
        words = f"'{support.LAUNCHER}' once double.psac cells.txt"
        for hints in ("0", "1"):
            for how in (f"{words} >/dev/full", f"{words} >&-"):
                got = support.ran(["sh", "-c", how], cwd=self.folder, env=support.environment(PSAC_HINTS=hints))
                self.assertEqual(got[0], 7, how)

    def test_a_reader_that_goes_away(self):
        self.save("script", b"show\n" * 300000)
        words = f"'{support.LAUNCHER}' session double.psac cells.txt <script"
        for hints in ("0", "1"):
            pipe = f"{{ {words}; echo $? >status; }} | head -n 1"
            got = support.ran(["sh", "-c", pipe], cwd=self.folder, env=support.environment(PSAC_HINTS=hints))
            self.assertEqual(got, (0, b"none\n", b""))
            self.assertEqual(self.saved("status"), b"7\n")

    def test_signals(self):
        for hints in ("0", "1"):
            for number in (signal.SIGTERM, signal.SIGINT, signal.SIGHUP):
                it = self.session(hints)
                it.stdin.write(b"commit\n")
                it.stdout.readline()
                it.send_signal(number)
                self.assertEqual(it.wait(support.PATIENCE), -number)

    def test_signals_behind_the_run(self):
        # Once the program has ended, there is nobody to hand a signal to: it ends the front.
        script = (
            "import signal; from front.report import Report; from front.stream import Run; "
            "Run('true', [], Report()).carry_out(); print(signal.getsignal(signal.SIGTERM) == signal.SIG_DFL)"
        )
        self.assertEqual(support.ran([sys.executable, "-B", "-c", script], cwd=support.ROOT)[1], b"True\n")

    def test_no_python_is_started(self):
        # A Python that leaves a mark: pipes don't start it, hints do.
        python = self.save_command("python", '#!/bin/sh\n: >"$MARK"\nexec "$REAL" "$@"\n')
        variables = {"PSAC_PYTHON": python, "REAL": sys.executable, "MARK": f"{self.folder}/started"}
        for words in ("once double.psac cells.txt", "session double.psac cells.txt", "help", "--version"):
            support.launched(words.split(), self.folder, **variables)
            self.assertFalse(self.is_saved("started"), words)
        words = [support.LAUNCHER, "once", "double.psac", "cells.txt"]
        self.assertEqual(support.Terminal(self, words, self.folder, PSAC_HINTS="0", **variables).status(), 0)
        self.assertFalse(self.is_saved("started"))
        support.launched(words[1:], self.folder, PSAC_HINTS="1", **variables)
        self.assertTrue(self.is_saved("started"))

    def test_without_python(self):
        words = ["once", "double.psac", "none.txt"]
        got = support.launched(words, self.folder, PSAC_HINTS="1", PSAC_PYTHON="no-such-python")
        self.assertEqual(got, (3, b"", b""))

    def test_special_files(self):
        # A program that can be read only once is not opened again for a hint, which would wait for another writer.
        os.mkfifo(f"{self.folder}/fifo")
        writer = subprocess.Popen(["sh", "-c", "echo 'func main(; a) {' >fifo"], cwd=self.folder)
        self.addCleanup(writer.wait, support.PATIENCE)
        status, output, errors = support.launched(["once", "fifo", "cells.txt"], self.folder, PSAC_HINTS="1")
        self.assertEqual((status, output), (4, b"program line 2 column 1 syntax\n"))
        self.assertIn(b"is no plain file", errors)


class Pages(support.Case):
    PAGES = {
        "--help": b"psac MODE PROGRAM INPUT",
        "-h": b"psac MODE PROGRAM INPUT",
        "help": b"psac MODE PROGRAM INPUT",
        "help once": b"psac once PROGRAM INPUT",
        "help session": b"psac> commit",
        "help bench": b"cells=4 batches=1",
        "help dump": b"psac record 1",
        "help certify": b"\n  no N ",
        "help explain": b"psac explain PROGRAM INPUT SCRIPT",
        "help watch": b"\n  watched 2\n",
        "help LANGUAGE": b"neg(5)",
        "help language": b"neg(5)",
        "help SCRIPT": b"set R C FIELD",
        "help HINTS": b"PSAC_HINTS=0",
        "--version": b"psac, commit ",
    }

    def page(self, name):
        with open(f"{support.ROOT}/front/pages/{name}.txt") as file:
            return file.read()

    def test_pages(self):
        for words, mark in self.PAGES.items():
            status, output, errors = support.launched(words.split())
            self.assertEqual((status, errors), (0, b""), words)
            self.assertIn(mark, output, words)
            for line in output.splitlines():
                self.assertLessEqual(len(line), 80, line)
        for words in (["help", "nothing"], ["help", "crew"]):
            status, output, errors = support.launched(words)
            self.assertEqual((status, output), (2, b""))
            self.assertTrue(errors.startswith(b"psac: "))

    def test_pages_need_no_program(self):
        for words in ("--help", "help once", "--version"):
            self.assertEqual(support.launched(words.split(), PSAC_PROGRAM="/no/such/program")[0], 0, words)

    def test_version(self):
        status, output, _ = support.launched(["--version"])
        self.assertEqual(status, 0)
        self.assertRegex(output, rb"^psac, commit \w+\nproved with: rattle-kit-\w+ logic \w+\n$")

    def test_programs_run(self):
        page = self.page("language")
        begin = page.index("  # The sum")
        self.save("sum.psac", page[begin : page.index("\nStatements")])
        self.save("cells.txt", "1\n2\n4\n")
        self.save("none.txt", "")
        self.assertEqual(support.bare(["once", "sum.psac", "cells.txt"], self.folder)[:2], (0, b"total = 7\n"))
        self.assertEqual(support.bare(["once", "sum.psac", "none.txt"], self.folder)[:2], (0, b"total = 0\n"))
        page = self.page("help")
        self.save("double.psac", page[page.index("  func main") : page.index("Then")])
        self.save("cells.txt", "21\n")
        self.assertEqual(support.bare(["once", "double.psac", "cells.txt"], self.folder)[:2], (0, b"out = 42\n"))

    def test_replies_are_so(self):
        page = self.page("session")
        shown = page[page.index("  psac> ") : page.index("  Tab")].split("\n")
        script = "".join(it[8:] + "\n" for it in shown if it.startswith("  psac> "))
        replies = "".join(it[2:] + "\n" for it in shown if it.strip() and not it.startswith("  psac> "))
        self.save_double()
        got = support.bare(["session", "double.psac", "cells.txt"], self.folder, script.encode())
        self.assertEqual(got, (0, replies.encode(), b""))

    def test_pages_name_what_there_is(self):
        from front import commands, tokens, words

        for name, bounds in words.OPTIONS.items():
            line = next(it for it in self.page("help").splitlines() if it.strip().startswith(f"--{name} "))
            for number in bounds:
                self.assertIn(str(number), line)
        for name in words.MODES:
            self.assertIn(f"\n  {name} ", self.page("help"))
        page = self.page("script")
        for it in commands.COMMANDS.values():
            self.assertIn(f"\n  {it.form} ", page)
        for word in tokens.RESERVED:
            self.assertRegex(self.page("language"), rf"\b{word}\b")

    def test_what_the_front_knows_is_there(self):
        # The program refuses none of the front's modes, and none of its commands as no command.
        from front import commands, words

        self.save_double()
        for name in words.MODES:
            status = support.bare([name, "double.psac", "4x1" if name == "bench" else "cells.txt"], self.folder)[0]
            self.assertEqual(status, 0, name)
        for name, line in {**{it: it for it in commands.COMMANDS}, "set": "set 0 0 1", "rows": "rows 1"}.items():
            line = {"hold": "hold 0 out 0", "held": "held 0"}.get(name, line)
            self.assertRegex(line, f"^{commands.COMMANDS[name].pattern}$")
            output = support.bare(["session", "double.psac", "cells.txt"], self.folder, f"commit\n{line}\n".encode())[1]
            self.assertNotIn(b"refused form", output, name)
