"""What the documents show is so, their links lead somewhere, and their lines are no wider than 120 columns."""

from __future__ import annotations

import itertools
import os
import re
import subprocess
import unittest
from dataclasses import dataclass
from pathlib import Path
from typing import Iterator

from tests.answers import answer, shown, wanted
from tests.support import TOP, Folder, program, run

PATTERNS = ("*.md", "docs/*.md", "examples/README.md", "examples/litmus/README.md", "crates/*/README.md")
MANUAL = "docs/ntbsim.1"
DOTS = "         .."
LINK = re.compile(r"\]\(([^)]*)\)")


@dataclass(frozen=True)
class Block:
    """A block of a document: its kind, its text, the line above it."""

    kind: str
    text: str
    line: int


def documents() -> list[Path]:
    """All documents."""
    return sorted(path for pattern in PATTERNS for path in TOP.glob(pattern))


def lines_of(document: Path) -> list[str]:
    """The lines of a document."""
    return document.read_text(encoding="utf-8").split("\n")


def blocks(document: Path) -> Iterator[Block]:
    """The blocks of a document that have a kind."""
    kind, begun, kept = "", 0, list[str]()
    for number, line in enumerate(lines_of(document), 1):
        if not kind and re.fullmatch(r"```[a-z]+", line):
            kind, begun, kept = line[3:], number, []
        elif line == "```":
            if kind:
                yield Block(kind, "".join(f"{text}\n" for text in kept), begun)
            kind = ""
        elif kind:
            kept.append(line)


def shown_blocks(document: Path, first: str, second: str) -> Iterator[tuple[Block, Block]]:
    """Each block of the second kind, with the last one of the first kind before it."""
    last = None
    for block in blocks(document):
        if block.kind == first:
            last = block
        elif block.kind == second and last is not None:
            yield last, block


def left_out(lines: list[str], expected: list[str]) -> list[str]:
    """A listing's lines, with those answers left out for which the expected lines have `..`."""
    kept: list[str] = []
    for line in lines:
        at = len(kept)
        if at < len(expected) and expected[at] == DOTS:
            following = expected[at + 1] if at + 1 < len(expected) else None
            if line.startswith("         ") and line != following:
                continue
            kept.append(DOTS)
        kept.append(line)
    return kept + [DOTS] if len(kept) < len(expected) and expected[len(kept)] == DOTS else kept


def anchors(document: Path) -> set[str]:
    """The headings of a document, as links name them."""
    found = (re.match(r"#+ (.*)", line) for line in lines_of(document))
    return {re.sub(r"[^a-z0-9 _-]", "", heading[1].lower()).replace(" ", "-") for heading in found if heading}


def links(document: Path) -> set[str]:
    """What a document's links and pictures name here."""
    parts = itertools.groupby(lines_of(document), key=lambda line: line.startswith("```"))
    spoken = [line for number, (_, lines) in enumerate(parts) if number % 4 == 0 for line in lines]
    return {link for line in spoken for link in LINK.findall(line) if link and not link.startswith("http")}


class Shown(Folder):
    """What documents show. They are run in a folder that has links to what they name."""

    maxDiff = 4000

    def setUp(self) -> None:
        """Makes the folder."""
        super().setUp()
        for name in ("ntbsim", "tools", "examples", "docs"):
            (self.folder / name).symlink_to(TOP / name)

    def test_reports(self) -> None:
        """A block `report` is what `replay` prints of the block `ntb` before it."""
        for document in documents():
            for script, report in shown_blocks(document, "ntb", "report"):
                with self.subTest(f"{shown(document)}, line {report.line}"):
                    self.assertEqual(answer(["replay"], script.text.encode()).stdout.decode(), report.text)

    def test_listings(self) -> None:
        """A block `listing` is what `--show` prints of the script in its numbered lines, without its last two lines."""
        for document in documents():
            for block in (block for block in blocks(document) if block.kind == "listing"):
                with self.subTest(f"{shown(document)}, line {block.line}"):
                    expected = block.text.splitlines()
                    script = "".join(f"{line}\n" for line in re.findall(r"(?m)^ *[0-9]+  (.*)$", block.text))
                    listed = run(["--show", self.write("listed.ntb", script)]).stdout.decode().splitlines()[:-2]
                    self.assertEqual(left_out(listed, expected), expected)

    def test_output(self) -> None:
        """A block `output` is what the block `sh` before it prints."""
        for document in documents():
            for commands, output in shown_blocks(document, "sh", "output"):
                with self.subTest(f"{shown(document)}, line {output.line}"):
                    for name in re.findall(r"(?m)(?:^|\| )(jq|parallel) ", commands.text):
                        wanted(name, f", so {shown(document)}, line {commands.line}, isn't run")
                    self.assertEqual(self.printed(commands.text), output.text)

    def printed(self, commands: str) -> str:
        """What a shell prints that runs these commands."""
        members = {**os.environ, "NTBSIM_PROGRAM": program().words[0], "NTBSIM_QUIET": "1"}
        words = ["sh", "-e", str(self.write("commands", commands))]
        done = subprocess.run(words, input=b"", capture_output=True, cwd=self.folder, env=members, check=False)
        return done.stdout.decode("utf-8", "replace")


class Texts(unittest.TestCase):
    """The documents' own texts."""

    def test_links(self) -> None:
        """Each link names a file that is there, and a heading that it has."""
        for document in documents():
            for link in sorted(links(document)):
                name, _, heading = link.partition("#")
                with self.subTest(f"{shown(document)}: {link}"):
                    target = document.parent / name if name else document
                    self.assertTrue(target.exists(), f"there is no {name}")
                    if heading and target.suffix == ".md":
                        self.assertIn(heading, anchors(target))

    def test_columns(self) -> None:
        """No line has more than 120 columns; rows of tables aside."""
        for document in documents():
            with self.subTest(shown(document)):
                lines = enumerate(lines_of(document), 1)
                wide = [at for at, line in lines if len(line) > 120 and not line.lstrip().startswith("|")]
                self.assertEqual(wide, [])

    def test_words(self) -> None:
        """A want of memory is written `out of memory`."""
        for document in documents():
            with self.subTest(shown(document)):
                self.assertNotRegex(document.read_text(encoding="utf-8").lower(), "want of memory")

    def test_anchors(self) -> None:
        """Headings are named as links have them."""
        self.assertIn("what-to-read", anchors(TOP / "docs" / "MODEL.md"))


class Manual(unittest.TestCase):
    """The manual page, by the programs that format it."""

    def test_mandoc(self) -> None:
        """mandoc finds nothing wrong."""
        words = [wanted("mandoc", ", so it doesn't read docs/ntbsim.1"), "-Tlint", MANUAL]
        done = subprocess.run(words, capture_output=True, cwd=TOP, check=False)
        self.assertEqual((done.stdout, done.stderr), (b"", b""))

    def test_groff(self) -> None:
        """groff warns of nothing."""
        words = [wanted("groff", ", so it doesn't read docs/ntbsim.1"), "-man", "-Tascii", "-ww", "-z", MANUAL]
        done = subprocess.run(words, capture_output=True, cwd=TOP, check=False)
        self.assertEqual((done.stdout, done.stderr), (b"", b""))


if __name__ == "__main__":
    unittest.main()
