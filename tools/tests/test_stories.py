"""Each story of examples/ has the report, the picture, the listing and the capture that are stored of it."""

from __future__ import annotations

import hashlib
import re
import unittest
import xml.etree.ElementTree
from pathlib import Path

from tests.answers import EXAMPLES, answer, has_traffic, is_refused, litmus_tests, matches, shown, stories
from tests.support import TOP, run

STORED = (TOP / "tools" / "tests" / "checksums.txt").read_text(encoding="utf-8").splitlines()
CHECKSUMS = {name: checksum for checksum, name in (line.split("  ", 1) for line in STORED)}
OPTIONS = {"listing": "--show", "capture": "--pcap", "picture": "--draw"}


def drawn_words(script: Path) -> list[str]:
    """The words of `--draw` that a story's picture is made with, as its comment says."""
    found = re.search(r"(?m)^# Drawn: (.*)$", script.read_text(encoding="latin-1"))
    return found.group(1).split() if found else []


def stored_text(script: Path) -> Path:
    """The text of the program that is stored beside a story."""
    return script.with_suffix(".reply" if script.suffix == ".reads" else ".report")


def text_of(script: Path) -> bytes:
    """What the program says of a story: of a run joined, of a stream, or of both one behind the other."""
    if script.suffix == ".reads" or not has_traffic(script):
        return answer(["reads" if script.suffix == ".reads" else "replay"], script).stdout
    text, stored = b"", stored_text(script).read_bytes()
    if re.search(rb"(?m)^lane ", stored):
        text = run(["--join", "-"], answer(["run"], script).stdout).stdout
    return text + (answer(["stream"], script).stdout if re.search(rb"(?m)^stream ", stored) else b"")


class Stories(unittest.TestCase):
    """What the program and the door make of the stories."""

    maxDiff = 2000

    def test_reports(self) -> None:
        """The program prints what is stored."""
        for script in stories() + stories("reads"):
            with self.subTest(shown(script)):
                self.assertEqual(text_of(script), stored_text(script).read_bytes())

    def test_statuses(self) -> None:
        """The program ends with 3 if the stored text begins with a refusal, and else with 0."""
        for script in stories() + stories("reads"):
            commands = ["reads"] if script.suffix == ".reads" else ["replay", "trace", "check"]
            for command in commands + (["run", "stream"] if has_traffic(script) else []):
                with self.subTest(f"{command} of {shown(script)}"):
                    refused = script.suffix == ".ntb" and is_refused(script)
                    self.assertEqual(answer([command], script).returncode, 3 if refused else 0)

    def test_pictures(self) -> None:
        """The door draws what is stored; of traffic it draws the stored report."""
        for script in stories() + stories("reads"):
            given = ["--from", stored_text(script)] if script.suffix == ".ntb" and has_traffic(script) else []
            with self.subTest(shown(script)):
                drawn = run(["--draw", *given, script, *drawn_words(script)])
                refused = script.suffix == ".ntb" and is_refused(script)
                self.assertEqual((drawn.returncode, drawn.stderr != b""), (3 if refused else 0, refused), drawn.stderr)
                self.assertEqual(drawn.stdout, script.with_suffix(".svg").read_bytes())

    def test_checksums(self) -> None:
        """Listings, captures and the gallery's pictures have the stored checksums."""
        for name, checksum in CHECKSUMS.items():
            kind, script = name.split(" ", 1)
            with self.subTest(name):
                made = run([OPTIONS[kind], script])
                self.assertEqual(hashlib.sha256(made.stdout).hexdigest(), checksum, made.stderr)

    def test_all_have_checksums(self) -> None:
        """Each story and each litmus test has the checksum of its listing; each script that is made, of its capture."""
        for script in stories() + stories("reads") + litmus_tests():
            with self.subTest(shown(script)):
                self.assertIn(f"listing {shown(script)}", CHECKSUMS)
                if script.suffix == ".ntb" and (script in litmus_tests() or not is_refused(script)):
                    self.assertIn(f"capture {shown(script)}", CHECKSUMS)
        for script in litmus_tests():
            self.assertIn(f"picture {shown(script)}", CHECKSUMS)

    def test_answers_in_listings(self) -> None:
        """A listing has each answer of the report under its line."""
        for script in stories():
            if not has_traffic(script) and not is_refused(script):
                with self.subTest(shown(script)):
                    listed = matches(run(["--show", script]).stdout, r"^         ")
                    told = matches(stored_text(script).read_bytes(), r"^[0-9]")
                    self.assertEqual(len(list(listed)), len(list(told)))

    def test_conditions(self) -> None:
        """What the stories say of their answers holds, and each says something."""
        done = run(["--test", "examples"])
        self.assertEqual(done.returncode, 0, done.stdout.decode("latin-1") + done.stderr.decode("latin-1"))
        for script in stories():
            found = re.search(rf"(?m)^ok {re.escape(shown(script))}: (\d+) condition", done.stdout.decode("latin-1"))
            with self.subTest(shown(script)):
                self.assertTrue(found and int(found.group(1)) > 0)

    def test_litmus_conditions(self) -> None:
        """The litmus conditions of the gallery hold."""
        done = run(["--explore", "examples/litmus"])
        self.assertEqual(done.returncode, 0, done.stdout.decode("latin-1") + done.stderr.decode("latin-1"))


class Heads(unittest.TestCase):
    """What stands in a story's comments and beside it."""

    def test_stories(self) -> None:
        """A story's second line is its question, and its result is said; examples/README.md has its row."""
        rows = (EXAMPLES / "README.md").read_text(encoding="utf-8")
        for script in stories() + stories("reads"):
            text = script.read_text(encoding="latin-1")
            with self.subTest(shown(script)):
                self.assertRegex(text.split("\n")[1], r"^# Question: .*\?$")
                self.assertRegex(text, r"(?m)^# Result: (Never|Allowed)[. ]")
                self.assertIn(f"({script.stem}.svg)", rows)

    def test_litmus_tests(self) -> None:
        """A litmus test has its question, its verdict, its law and a condition; the gallery has its row."""
        rows = (EXAMPLES / "litmus" / "README.md").read_text(encoding="utf-8")
        for script in litmus_tests():
            text = script.read_text(encoding="latin-1")
            with self.subTest(shown(script)):
                self.assertRegex(text.split("\n")[1], r"^# Question: .*\?( \(.*\))*$")
                self.assertRegex(text, r"(?m)^# Verdict: (Never|Sometimes)[. :,]")
                self.assertRegex(text, r"(?m)^# Law: ")
                self.assertRegex(text, r"(?m)^#(always|sometimes|never) ")
                self.assertIn(f"({script.name})", rows)

    def test_columns(self) -> None:
        """No comment has more than 120 columns."""
        for script in stories() + stories("reads") + litmus_tests():
            lines = script.read_text(encoding="latin-1").split("\n")
            with self.subTest(shown(script)):
                self.assertEqual([line for line in lines if line.startswith("#") and len(line) > 120], [])

    def test_nothing_is_left(self) -> None:
        """Each stored text and picture has a script beside it."""
        for path in sorted([*EXAMPLES.glob("*.report"), *EXAMPLES.glob("*.svg"), *EXAMPLES.glob("*.reply")]):
            with self.subTest(shown(path)):
                self.assertTrue(path.with_suffix(".ntb").exists() or path.with_suffix(".reads").exists())

    def test_pictures_are_xml(self) -> None:
        """Each picture is XML."""
        for path in sorted([*EXAMPLES.glob("*.svg"), *(TOP / "docs").glob("*.svg")]):
            with self.subTest(shown(path)):
                xml.etree.ElementTree.parse(path)


if __name__ == "__main__":
    unittest.main()
