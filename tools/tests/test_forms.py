"""The table of steps and answers against docs/FORMATS.md and the definitions."""

from __future__ import annotations

import re
import unittest

from ntbview import forms

from . import support

QUOTED = re.compile(r"`([^`]*)`")


def rows(section: str, head: str) -> list[list[list[str]]]:
    """The rows of a table of a section: of each cell what stands in backticks."""
    text = (support.TOP / "docs" / "FORMATS.md").read_text(encoding="utf-8")
    table = text.split(f"\n## {section}\n")[1].split("\n## ")[0].split(f"\n| {head} |")[1].split("\n\n")[0]
    return [[QUOTED.findall(cell) for cell in line.split(" | ")] for line in table.split("\n")[2:]]


def quoted(section: str) -> list[str]:
    """What stands in backticks in a section."""
    text = (support.TOP / "docs" / "FORMATS.md").read_text(encoding="utf-8")
    return QUOTED.findall(text.split(f"\n## {section}\n")[1].split("\n## ")[0].replace("\n", " "))


class Forms(unittest.TestCase):
    """Each test compares one table."""

    def test_forms_are_those_of_the_document(self) -> None:
        for part, section in (("declarations", "Declarations"), ("traffic", "Traffic")):
            self.assertEqual([cells[0][0] for cells in rows(section, "Line")], list(forms.FORMS[part]))
        steps = [cells[0][0] for head in ("Step", "Macro") for cells in rows(head + "s", head)]
        self.assertEqual([*steps, "traffic"], list(forms.FORMS["steps"]))
        self.assertEqual(sum((cells[0] for cells in rows("Declarations", "Option")), []), list(forms.OPTIONS))

    def test_answers_are_those_of_the_document(self) -> None:
        self.assertEqual({cells[0][0]: tuple(cells[2]) for cells in rows("Steps", "Step")}, forms.STEPS)
        self.assertEqual({cells[0][0]: tuple(cells[2]) for cells in rows("A text of reads", "Line")}, forms.READS)
        macros = {cells[0][0]: tuple(word.split()[0] for word in cells[1]) for cells in rows("Macros", "Macro")}
        self.assertEqual({form: tuple(dict.fromkeys(steps)) for form, steps in macros.items()}, forms.MACROS)
        self.assertEqual({cells[0][0]: tuple(cells[2]) for cells in rows("Labels", "Text")}, forms.LABELS)

    def test_every_answer_has_a_meaning(self) -> None:
        for section, table in (("Answers", forms.STEPS), ("A text of reads", forms.READS)):
            told = {answer for cells in rows(section, "Answer") for answer in cells[0]}
            given = {answer for answers in table.values() for answer in answers}
            self.assertEqual(given - told, {"frame NUMBER -", "queue COUNT -"} & given)
            self.assertEqual(told - given, set())

    def test_lines_of_other_texts_stand_in_their_sections(self) -> None:
        told = {"The text of a run": forms.RUN, "The text of a stream": forms.STREAM, "The report": forms.COUNTS}
        for section, lines in told.items():
            self.assertLessEqual(set(lines), set(quoted(section)))

    def test_causes_are_those_of_the_document_and_the_definitions(self) -> None:
        self.assertEqual(sorted(cells[0][0] for cells in rows("Faults", "Cause")), sorted(forms.CAUSES))
        text = (support.TOP / "crates" / "script_words" / "specs" / "Causes.antt").read_text(encoding="utf-8")
        self.assertEqual(sorted(re.findall(r'codes "([a-z]*)"', text)), sorted(forms.CAUSES))

    def test_answers_of_a_word(self) -> None:
        self.assertEqual(forms.answers_of("steps", "recv")[-3:], ("frame NUMBER -", "cleared NUMBER", "acked NUMBER"))
        self.assertEqual(len(forms.answers_of("steps", "post")), 7)
        self.assertEqual(len(forms.answers_of("steps", "land")), 11)
        self.assertIn("queue COUNT pad I V", forms.answers_of("steps", "showq"))
        self.assertEqual(forms.answers_of("traffic", "traffic"), forms.RUN + forms.STREAM)
        for part, word in (("declarations", "host"), ("steps", "traffic"), ("traffic", "frame"), ("reads", "begin")):
            self.assertEqual(forms.answers_of(part, word), ())
