"""Tests of the table of words: help, the manual page, completion and the documents follow it."""

from __future__ import annotations

import subprocess
import unittest

from ntbview.words import COMMANDS, STATUSES, filled, help_of, help_text

from .support import TOP, Folder, run


class Table(unittest.TestCase):
    """What is made of the table."""

    def test_pages(self) -> None:
        """The manual page and completion are as `--manual` makes them."""
        for name in ("docs/ntbsim.1", "tools/complete/ntbsim.bash"):
            text = (TOP / name).read_text()
            self.assertEqual(filled(text), text, f"python3 -I tools/ntbview --manual {name} > NEW")

    def test_lint(self) -> None:
        """The manual page has no fault that mandoc or groff tells."""
        for words in (["mandoc", "-Tlint"], ["groff", "-man", "-Tascii", "-ww", "-z"]):
            try:
                done = subprocess.run([*words, TOP / "docs/ntbsim.1"], capture_output=True, check=False)
            except FileNotFoundError:
                continue
            self.assertEqual(done.stdout + done.stderr, b"")

    def test_help(self) -> None:
        """Help has each command and each status, in 120 columns; that of a command has its options."""
        text = help_text()
        self.assertEqual([line for line in text.split("\n") if len(line) > 124], [])
        for name, command in COMMANDS.items():
            self.assertIn(f"    ntbsim {name} ", text)
            for option, says in command.options.items():
                self.assertRegex(help_of(command), rf"(?m)^ +{option.replace('[', '.')} +{says[:20]}")
        for status in STATUSES:
            self.assertIn(status[:20], text.replace("\n", " "))

    def test_documents(self) -> None:
        """The newest version is that of the change log."""
        version = (TOP / "CHANGELOG.md").read_text().split("\n## ")[1].split()[0]
        self.assertEqual(run(["--version"]).stdout.split(b"\n")[0].decode(), f"ntbsim {version}")

    def test_ways_to_help(self) -> None:
        """Help is asked for in five ways."""
        whole = run(["--help"])
        self.assertEqual((whole.returncode, whole.stdout.decode(), whole.stderr), (0, help_text(), b""))
        for words in (["-h"], ["help"]):
            self.assertEqual(run(words).stdout, whole.stdout)
        for name, command in COMMANDS.items():
            ways = [["help", name], ["help", name.lstrip("-")], [name, "--help"], [name, "-h"]]
            for words in ways if name not in ("--help", "--check", "--explore") else ways[:1]:
                done = run(words)
                self.assertEqual((words, done.returncode, done.stdout.decode()), (words, 0, help_of(command)))
        self.assertEqual(run(["--show", "a", "--from", "b", "--help"]).stdout.decode(), help_of(COMMANDS["--show"]))


class Completion(Folder):
    """What bash is told."""

    def complete(self, *words: str) -> list[str]:
        """The words that complete the last one."""
        script = '. "$1"; shift; COMP_WORDS=("$@"); COMP_CWORD=$(($# - 1)); _ntbsim; printf "%s\\0" "${COMPREPLY[@]}"'
        place = TOP / "tools/complete/ntbsim.bash"
        given = ["bash", "-c", script, "bash", place, "ntbsim", *words]
        done = subprocess.run(given, cwd=self.folder, capture_output=True)
        self.assertEqual(done.stderr, b"")
        return sorted(done.stdout.decode().split("\0")[:-1])

    def test_words(self) -> None:
        """Commands, options and values."""
        self.assertEqual(self.complete("re"), ["reads", "replay"])
        self.assertEqual(self.complete("--s"), ["--show"])
        self.assertEqual(self.complete("--show", "--f"), ["--from"])
        self.assertEqual(self.complete("--show", "--color", "a"), ["always", "auto"])
        self.assertEqual(self.complete("load", ""), ["--help"])

    def test_files(self) -> None:
        """Files with any name, and folders; what isn't a script only behind `--from`."""
        names = ["a b.ntb", "a'\".ntb", "a\nb.ntb", "$(touch pwned).reads", "-delete.ntb", "*.ntb"]
        for name in [*names, "a.trace"]:
            self.write(name, "")
        (self.folder / "folder").mkdir()
        found = self.complete("--show", "")
        wanted = sorted(["./-delete.ntb", "folder", *names[:4], names[5]])
        self.assertEqual([name for name in found if name[:2] != "--"], wanted)
        self.assertEqual(self.complete("replay", "a\\ "), ["a b.ntb"])
        self.assertEqual(self.complete("--show", "a.ntb", "--from", "a.t"), ["a.trace"])
        self.assertEqual(self.complete("--explore", "--into", ""), ["folder"])
        self.assertEqual(len(list(self.folder.iterdir())), len(names) + 2)
