"""Explorations: the form of their text, how they grow, and what other programs find."""

from __future__ import annotations

import os
import re
import subprocess
import time
import unittest
from pathlib import Path
from typing import Union

from tests.answers import EXAMPLES, answer, litmus_tests, matches, shown, wanted
from tests.support import TOP, program

HEAD = re.compile(r"outcomes ([1-9][0-9]*) states [0-9]+")
LANDING = re.compile(r"by [0-9]+ [0-9]+ land [a-z0-9]+ [AB] [0-9]+")
ANSWER = re.compile(r"[0-9]+ .+")
# The litmus tests that the brute force takes, too.
SMALL = ("buffers", "message", "length", "apart")


def explored(script: Union[Path, bytes]) -> subprocess.CompletedProcess[bytes]:
    """What `explore` answers."""
    return answer(["explore"], script)


def steps_of(script: Path) -> int:
    """How many steps a script has."""
    return len(list(matches(answer(["replay"], script).stdout, "^[0-9]")))


def outcomes_in(text: str) -> list[tuple[list[str], list[str]]]:
    """The outcomes of a text, each with its landings and its own answers. Other lines stand in no outcome."""
    parts = re.split(r"(?m)^outcome ([0-9]+)\n", text)
    if [int(number) for number in parts[1::2]] != list(range(1, len(parts[1::2]) + 1)):
        raise AssertionError("the outcomes aren't numbered from 1")
    found = []
    for part in parts[2::2]:
        lines = [line for line in part.splitlines() if not line.startswith("always ") and line != "end"]
        landings = [line for line in lines if LANDING.fullmatch(line)]
        if lines[: len(landings)] != landings or not all(map(ANSWER.fullmatch, lines[len(landings) :])):
            raise AssertionError(f"landings and then answers are wanted: {lines}")
        found.append((landings, lines[len(landings) :]))
    return found


def without_numbers(answers: list[str]) -> list[str]:
    """Answers without the lines that they stand for."""
    return [line.split(" ", 1)[1] for line in answers]


def tool(*words: str, script: bytes = b"") -> subprocess.CompletedProcess[bytes]:
    """What a tool of the repository says, over the same program."""
    members = {**os.environ, "NTBSIM_PROGRAM": program().words[0]}
    command = [str(TOP / "tools" / words[0]), *words[1:]]
    return subprocess.run(command, input=script, capture_output=True, env=members, check=False)


class Texts(unittest.TestCase):
    """The texts of the gallery's explorations."""

    def test_form(self) -> None:
        """Outcomes are numbered, differ, stand in order, and have with what is common an answer for each step."""
        for script in [*litmus_tests(), EXAMPLES / "first.ntb"]:
            with self.subTest(shown(script)):
                done = explored(script)
                self.assertEqual((done.returncode, done.stderr), (0, b""))
                self.has_form(done.stdout.decode("latin-1"), steps_of(script))

    def has_form(self, text: str, steps: int) -> None:
        """A text has the form that it should have for this many steps."""
        head, rest = text.split("\n", 1)
        many, found = HEAD.fullmatch(head), outcomes_in(rest)
        answers = [answers for _, answers in found]
        common = re.findall(r"(?m)^always [0-9]+ .+$", rest)
        self.assertTrue(many and int(many[1]) == len(found), head)
        self.assertTrue(text.endswith("".join(f"{line}\n" for line in [*common, "end"])))
        self.assertEqual({len(each) + len(common) for each in answers}, {steps})
        keys = [without_numbers(each) for each in answers]
        self.assertEqual(keys, sorted(keys))
        self.assertEqual(len(keys), len({tuple(key) for key in keys}))

    def test_wrong_form(self) -> None:
        """That test sees a text in another order, one without its end, and one with an outcome less."""
        text = explored(EXAMPLES / "litmus" / "length.ntb").stdout.decode("latin-1")
        parts = re.split(r"(?m)^(?=outcome )", text)
        changed = [text.replace("end\n", ""), "".join(parts[:-1]) + "end\n", text.replace("outcome 2\n", "outcome 3\n")]
        steps = steps_of(EXAMPLES / "litmus" / "length.ntb")
        self.has_form(text, steps)
        for each in changed:
            with self.subTest(each[-60:]), self.assertRaises(AssertionError):
                self.has_form(each, steps)

    def test_growth(self) -> None:
        """The states are those that were worked out, and four times as many take at most forty times the seconds."""
        took = {}
        for count in (11, 13):
            pokes = "".join(f"poke p A 0 {number} 61\n" for number in range(count))
            script = f"ntb 1\nhost a\nhost b\npair p a b up raw size=4096\nsteps\n{pokes}".encode()
            begun = time.monotonic()
            self.assertTrue(explored(script).stdout.startswith(f"outcomes 1 states {(1 << count) - 1}\n".encode()))
            took[count] = time.monotonic() - begun
        self.assertLess(took[13], 40 * max(took[11], 0.05))


class Others(unittest.TestCase):
    """What other programs find of the same scripts."""

    def test_brute_force(self) -> None:
        """The brute force finds the same outcomes of small litmus tests."""
        for name in SMALL:
            with self.subTest(name):
                script = (EXAMPLES / "litmus" / f"{name}.ntb").read_bytes()
                text = re.sub(rb" states .*", b"", explored(script).stdout, count=1)
                brute = tool("explore-brute", script=script)
                self.assertEqual(brute.returncode, 0, brute.stderr)
                texts = [re.sub(rb"(?m)^by .*\n", b"", each).decode("latin-1") for each in (text, brute.stdout)]
                self.assertEqual(*texts)

    def test_random(self) -> None:
        """The brute force finds the same outcomes of 20 random scripts."""
        done = tool("explore-brute", "--random", "20", "1")
        self.assertEqual(done.returncode, 0, done.stdout.decode("latin-1") + done.stderr.decode("latin-1"))

    def test_spin(self) -> None:
        """The model checker spin finds the same outcomes of three litmus tests."""
        for name in ("spin", "cc"):
            wanted(name, ", so it finds no outcomes of three litmus tests")
        done = tool("bench-explore", "--outcomes")
        self.assertEqual(done.returncode, 0, done.stdout.decode("latin-1") + done.stderr.decode("latin-1"))


if __name__ == "__main__":
    unittest.main()
