"""The installation, the way back, manual pages and completion."""
import os
import shutil

import support

TREE = "front tools completion man editors docs .ci".split()
PLACES = """
bin/psac
bin/psac-table
libexec/psac/psac
share/man/man1/psac.1
share/man/man1/psac-table.1
share/psac/front/enter.sh
share/psac/tools/table
bin/psac-explain
bin/psac-work-plot
share/man/man1/psac-record-svg.1
share/psac/tools/psac_record.py
share/bash-completion/completions/psac
share/bash-completion/completions/psac-table
share/zsh/site-functions/_psac
share/vim/vimfiles/syntax/psac.vim
share/psac/editors/vscode/package.json
"""


class Install(support.Case):
    def setUp(self):
        super().setUp()
        self.save_double()
        # What of a checkout an installation needs.
        self.tree = f"{self.folder}/checkout"
        os.makedirs(f"{self.tree}/crates/psac")
        for name in (*TREE, "crates/psac/data"):
            shutil.copytree(f"{support.ROOT}/{name}", f"{self.tree}/{name}")
        for name in ("psac", "install", "README.md"):
            shutil.copy(f"{support.ROOT}/{name}", self.tree)

    def install(self, *words, **variables):
        environment = support.environment(**variables)
        status, output, errors = support.ran([f"{self.tree}/install", *words], cwd=self.folder, env=environment)
        return status, (output + errors).decode()

    def installed(self, command, *words, **variables):
        """Runs an installed command."""
        environment = support.environment(**variables)
        del environment["PSAC_PROGRAM"]
        return support.ran([command, *words], cwd=self.folder, env=environment)

    def files(self, below):
        return sorted(os.path.relpath(os.path.join(at, it), below) for at, _, names in os.walk(below) for it in names)

    def test_install_and_uninstall(self):
        prefix = f"{self.folder}/a prefix"
        os.makedirs(f"{prefix}/share/man/man1")
        self.save("a prefix/share/man/man1/other.1", "")
        for _ in range(2):  # a second time over the first
            status, said = self.install(prefix)
            self.assertEqual(status, 0, said)
        for name in PLACES.split():
            self.assertIn(name, self.files(prefix))
        os.rename(self.tree, f"{self.folder}/away")  # nothing of the checkout is needed any more
        self.use(f"{prefix}/bin")
        os.rename(f"{self.folder}/away", self.tree)
        status, said = self.install("uninstall", prefix)
        self.assertEqual(status, 0, said)
        self.assertEqual(self.files(prefix), ["share/man/man1/other.1"])
        self.assertEqual(os.listdir(prefix), ["share"])

    def use(self, folder):
        """Uses the installed commands."""
        psac, double = f"{folder}/psac", ("once", "double.psac", "cells.txt")
        self.assertEqual(self.installed(psac, *double), (0, b"out = 42\n", b""))
        status, _, errors = self.installed(psac, "once", "double.psac", "none.txt", PSAC_HINTS="1")
        self.assertEqual(status, 3)
        self.assertIn(b"hint: the input none.txt", errors)
        self.assertRegex(self.installed(psac, "--version")[1], rb"^psac, commit \w+\nproved with: .+\n$")
        self.assertEqual(self.installed(psac, "help")[0], 0)
        os.symlink(psac, f"{self.folder}/link")
        self.assertEqual(self.installed(f"{self.folder}/link", *double)[0], 0)
        self.save("t.csv", "a\n5\n")
        self.assertEqual(self.installed(f"{folder}/psac-table", "t.csv"), (0, b"5\n", b""))
        self.save("before", "psac record 1\nE\n")
        self.save("t.txt", "5\n")
        self.assertEqual(self.installed(f"{folder}/psac-explain", "before", "before")[0], 0)
        self.save("script", "commit\nset 0 0 5\ncommit\n")
        self.assertIn(b"\n#1 block at line 2 ", self.installed(psac, "explain", "double.psac", "cells.txt", "script")[1])
        self.assertEqual(self.installed(f"{folder}/psac-record-svg", "before")[0], 0)
        self.assertEqual(self.installed(f"{folder}/psac-edits", "t.txt", "t.txt"), (0, b"commit\n", b""))
        self.assertEqual(self.installed(f"{folder}/psac-work-plot", "t.txt")[0], 1)

    def test_destdir(self):
        stage = f"{self.folder}/stage"
        status, said = self.install("/usr", DESTDIR=stage)
        self.assertEqual(status, 0, said)
        output = self.installed(f"{stage}/usr/bin/psac", "once", "double.psac", "cells.txt")[1]
        self.assertEqual(output, b"out = 42\n")
        self.assertEqual(self.install("uninstall", "/usr", DESTDIR=stage)[0], 0)
        self.assertEqual(self.files(stage), [])

    def test_refusals(self):
        self.assertEqual(self.install("uninstall", f"{self.folder}/nothing")[0], 1)
        self.assertEqual(self.install("--what")[0], 1)
        self.assertEqual(self.install("a", "b")[0], 1)
        self.assertEqual(self.install(f"{self.folder}/p", PSAC_PROGRAM="/no/such/program")[0], 1)
        self.assertFalse(self.is_saved("p"))
        self.assertEqual(self.install("--help")[0], 0)

    def test_manual_pages(self):
        if shutil.which("man") is None:
            self.skipTest("man isn't there")
        for name in sorted(os.listdir(f"{support.ROOT}/man")):
            words = ["man", "--warnings", "-l", f"{support.ROOT}/man/{name}"]
            status, page, errors = support.ran(words, env=support.environment(MANPAGER="cat"))
            self.assertEqual((status, errors), (0, b""), name)
            self.assertGreater(len(page), 1000)


class Completion(support.Case):
    def complete(self, *words):
        """What bash completes the last of these words to."""
        script = f"""
            . '{support.ROOT}/completion/psac.bash'
            COMP_WORDS=("$@")
            COMP_CWORD=$(($# - 1))
            if [ "$1" = psac ]; then _psac; else _psac_table; fi
            printf '%s\\n' "${{COMPREPLY[@]}}"
        """
        output = support.ran(["bash", "-c", script, "bash", *words], cwd=self.folder)[1]
        return sorted(output.decode().split("\n")[:-1])

    def test_bash(self):
        for name in ("a.psac", "a.csv", "a b.psac"):
            self.save(name, "")
        os.mkdir(f"{self.folder}/ab")
        for words, wanted in (
            ("psac o", "once"),
            ("psac ", "bench certify dump explain help once session watch"),
            ("psac explain a.psac a.csv a.", "a.csv a.psac"),
            ("psac help L", "LANGUAGE"),
            ("psac once a.psac a.", "a.csv a.psac"),
            ("psac once --rows 5 a.p", "a.psac"),
            ("psac once a.psac --n", "--nodes"),
            ("psac-table --sk", "--skeleton"),
            ("psac-table --separator s", "semicolon"),
        ):
            self.assertEqual(self.complete(*words.split(" ")), wanted.split(), words)
        self.assertEqual(self.complete("psac", "once", "a"), ["a b.psac", "a.psac", "ab"])

    def test_words_are_those_that_there_are(self):
        from front import words

        with open(f"{support.ROOT}/completion/_psac") as file:
            zsh = file.read()
        self.assertEqual(self.complete("psac", "once", "a.psac", "--"), sorted(f"--{it}" for it in words.OPTIONS))
        self.assertEqual(self.complete("psac", ""), sorted(["explain", "help", *words.MODES]))
        for name, bounds in words.OPTIONS.items():
            self.assertIn(f"'--{name}[", zsh)
            self.assertIn(f"number, {bounds.least} to {bounds.most}:", zsh)
        for name in words.MODES:
            self.assertIn(f"{name}\\:", zsh)
        of_table = self.complete("psac-table", "--")
        for it in of_table:
            self.assertIn(it, zsh)
        shown = support.ran([f"{support.ROOT}/tools/table", "--help"])[1].decode()
        for it in of_table:
            self.assertIn(it, shown)

    def test_zsh(self):
        if shutil.which("zsh") is None:
            self.skipTest("zsh isn't there")
        self.assertEqual(support.ran(["zsh", "-n", f"{support.ROOT}/completion/_psac"])[0], 0)
