"""The files of wrong bodies and of wrong definitions, which tools/wrong-bodies and tools/wrong-definitions try.

A folder has files FILE.edits, and in each stand edits: a head, which is a line `# NAME`, and the lines of the edit
under it, each of a word, a colon and the rest. A name stands once in a folder. Empty lines say nothing.
"""

from __future__ import annotations

import re
from dataclasses import dataclass
from pathlib import Path
from typing import Iterable, Iterator

TOP = Path(__file__).resolve().parent.parent
# What may follow a line that says a file or a text.
OF_CHANGES = {"file": ("old",), "old": ("new",), "new": ("old", "file")}


@dataclass(frozen=True)
class Form:
    """How an edit is written: a pattern of its name, and of the head, `#`, and each word the words that may follow."""

    name: str
    follows: dict[str, tuple[str, ...]]


BODY = Form(r"\w+/[\w-]+", {"#": ("file",), **OF_CHANGES})
DEFINITION = Form(r"[\w-]+", {"#": ("about",), "about": ("file",), **OF_CHANGES})


class Malformed(Exception):
    """What is wrong in a file of edits, and at which of its lines."""


@dataclass(frozen=True)
class Line:
    """A line of a file of edits: its place, and its text."""

    file: str
    number: int
    text: str

    def parted(self) -> tuple[str, str]:
        """Its word, and what follows the colon and a space."""
        match = re.fullmatch(r"(\w+):(?: (.*))?", self.text)
        return (match[1], match[2] or "") if match else ("", "")

    def malformed(self, why: str) -> Malformed:
        """The error that something is wrong here."""
        return Malformed(f"{self.file}:{self.number}: {why}")


@dataclass(frozen=True)
class Change:
    """What is changed in a file: an old text into a new one."""

    file: str
    old: str
    new: str


@dataclass(frozen=True)
class Edit:
    """An edit: its head and its name, its lines as they stand, and what they say."""

    head: Line
    name: str
    lines: tuple[str, ...]
    about: str
    changes: tuple[Change, ...]


def lines_of(path: Path, top: Path) -> Iterator[Line]:
    """The lines of a file that aren't empty; its path begins at the top."""
    for number, text in enumerate(path.read_text(encoding="utf-8").split("\n"), 1):
        if text:
            yield Line(str(path.relative_to(top)), number, text)


def stanzas(lines: Iterable[Line]) -> Iterator[list[Line]]:
    """The heads of a file, each with the lines under it."""
    stanza: list[Line] = []
    for line in lines:
        if line.text.startswith("# "):
            if stanza:
                yield stanza
            stanza = [line]
        elif stanza:
            stanza.append(line)
        else:
            raise line.malformed(f"no head stands above: {line.text}")
    if stanza:
        yield stanza


def edit_of(stanza: list[Line], form: Form) -> Edit:
    """An edit, by its head and the lines under it."""
    head, *lines = stanza
    name = head.text[2:]
    if not re.fullmatch(form.name, name):
        raise head.malformed(f"no name of an edit: {name}")
    last, said, changes = "#", {"about": ""}, list[Change]()
    for line in lines:
        word, rest = line.parted()
        if word not in form.follows:
            raise line.malformed(f"no line of an edit: {line.text}")
        if word not in form.follows[last]:
            raise line.malformed(f"{wanted(form, last)} is wanted: {line.text}")
        if not rest and word != "new":
            raise line.malformed(f"nothing stands behind {word}:")
        last, said[word] = word, rest
        if word == "new":
            changes.append(Change(said["file"], said["old"], said["new"]))
    if last != "new":
        raise head.malformed(f"{name} ends where {wanted(form, last)} is wanted")
    return Edit(head, name, tuple(line.text for line in lines), said["about"], tuple(changes))


def wanted(form: Form, last: str) -> str:
    """The words that may follow a line, as they are told."""
    return " or ".join(f"`{word}:`" for word in form.follows[last])


def read_edits(folder: Path, form: Form, top: Path = TOP) -> list[Edit]:
    """The edits of all files of a folder."""
    edits: dict[str, Edit] = {}
    for path in sorted(folder.iterdir()):
        if path.suffix != ".edits":
            raise Malformed(f"{path.relative_to(top)}:1: no file of edits, whose names end in .edits")
        for stanza in stanzas(lines_of(path, top)):
            edit = edit_of(stanza, form)
            if edit.name in edits:
                first = edits[edit.name].head
                raise edit.head.malformed(f"{edit.name} stands at {first.file}:{first.number} too")
            edits[edit.name] = edit
    if not edits:
        raise Malformed(f"{folder.relative_to(top)}:1: no edit stands here")
    return list(edits.values())
