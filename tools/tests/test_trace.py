"""A trace is JSON, has a line for each step, and its numbers of writes agree with one another."""

from __future__ import annotations

import collections
import json
import re
import subprocess
import unittest
from pathlib import Path
from typing import Any, Iterator

from tests.answers import EXAMPLES, answer, is_refused, litmus_tests, matches, shown, stories, wanted
from tests.support import run

Members = dict[str, Any]


class Writes:
    """The writes of one side: `state` has each that was posted, in order, as `flying`, `landed` or `dropped`."""

    def __init__(self) -> None:
        self.state: list[str] = []

    def flying(self, below: int) -> list[int]:
        """The numbers of those in flight that were posted before this number."""
        return [number for number, state in enumerate(self.state[:below]) if state == "flying"]

    def end(self, number: int, how: str) -> str:
        """Ends a write; what is wrong if it isn't in flight."""
        was = self.state[number] if number < len(self.state) else "not posted"
        if was == "flying":
            self.state[number] = how
            return ""
        return f"write {number} is {how}, and it was {was}"


def wrong_numbers(lines: list[str]) -> list[str]:
    """What doesn't agree in a trace. Each number is posted once, in order, and ends once at most. A landing passed as
    many as are in flight before it. A drop takes all that is in flight, and `showq` counts that."""
    sides: dict[str, Writes] = collections.defaultdict(Writes)
    found = []
    for at, line in enumerate(lines, 1):
        if line.startswith('{"line":'):
            found += [f"line {at}: {why}" for why in wrong_step(json.loads(line), sides) if why]
    return found


def wrong_step(members: Members, sides: dict[str, Writes]) -> Iterator[str]:
    """What doesn't agree with the steps before in one step's numbers."""
    pair, side = members["step"].get("pair", ""), members["step"].get("side", "")
    own, write = sides[f"{pair} {side}"], members.get("write")
    if "dropped" in members:
        for name in "AB":
            other = sides[f"{pair} {name}"]
            numbers = members["dropped"][name]
            yield "the drop has other writes" if numbers != other.flying(len(other.state)) else ""
            yield from (other.end(number, "dropped") for number in numbers)
    elif "waits_for" in members:
        flying = own.flying(write + 1)
        fits = write in flying and members["waits_for"] in flying and members["waits_for"] < write
        yield "" if fits else "a write waits for another one than an earlier one in flight"
    elif "passed" in members:
        yield "another number of writes was passed" if members["passed"] != len(own.flying(write)) else ""
        yield own.end(write, "landed")
    elif write is not None:
        yield "another number is next" if write != len(own.state) else ""
        own.state.append("flying")
    elif members["answer"]["name"] == "queue":
        count = len(own.flying(len(own.state)))
        yield "another number of writes is shown" if members["answer"]["count"] != count else ""


def traced(script: Path) -> str:
    """The trace of a script."""
    return answer(["trace"], script).stdout.decode("latin-1")


class Traces(unittest.TestCase):
    """The traces of the stories and of the gallery."""

    def test_json(self) -> None:
        """Each line is an object, written without a space and as Python and jq write it again."""
        made = [script for script in stories() if not is_refused(script)] + litmus_tests()
        for script in made:
            with self.subTest(shown(script)):
                lines = traced(script).splitlines()
                self.assertEqual([json.dumps(json.loads(line), separators=(",", ":")) for line in lines], lines)

    def test_jq(self) -> None:
        """jq writes each trace again as it is."""
        jq = wanted("jq", ", so no other program reads traces")
        for script in stories():
            if not is_refused(script):
                with self.subTest(shown(script)):
                    text = traced(script).encode("latin-1")
                    done = subprocess.run([jq, "-c", "."], input=text, capture_output=True, check=True)
                    self.assertEqual(done.stdout, text)

    def test_members(self) -> None:
        """Each step has its line, itself, its answer and whether it was made, before all else."""
        for script in stories() + litmus_tests():
            with self.subTest(shown(script)):
                lines = traced(script).splitlines()
                steps = [json.loads(line) for line in lines if line.startswith('{"line":')]
                self.assertLessEqual({tuple(members)[:4] for members in steps}, {("line", "step", "answer", "made")})
                self.assertLessEqual({type(members["made"]) for members in steps}, {bool})

    def test_steps(self) -> None:
        """A trace has the lines of the report's answers, in order."""
        for script in stories():
            if not is_refused(script):
                with self.subTest(shown(script)):
                    told = matches(answer(["replay"], script).stdout, r"^[0-9]+")
                    self.assertEqual(re.findall(r'(?m)^\{"line":([0-9]+)', traced(script)), list(told))

    def test_refused(self) -> None:
        """The trace of a refused script is its report."""
        for script in filter(is_refused, stories()):
            with self.subTest(shown(script)):
                self.assertEqual(traced(script).encode(), script.with_suffix(".report").read_bytes())

    def test_numbers(self) -> None:
        """The numbers of writes agree."""
        for script in stories() + litmus_tests():
            with self.subTest(shown(script)):
                self.assertEqual(wrong_numbers(traced(script).splitlines()), [])

    def test_wrong_numbers(self) -> None:
        """That test sees wrong numbers."""
        text = traced(EXAMPLES / "relaxed.ntb")
        changes = {'"passed":1': '"passed":2', '"waits_for":0': '"waits_for":2', '"write":2}': '"write":3}'}
        for old, new in changes.items():
            with self.subTest(f"{old} is {new}"):
                self.assertIn(old, text)
                self.assertNotEqual(wrong_numbers(text.replace(old, new).splitlines()), [])

    def test_door(self) -> None:
        """`--json` prints the trace, of a file and of standard input; of a refused script an object that says why."""
        script = EXAMPLES / "early.ntb"
        for done in (run(["--json", script]), run(["--json", "-"], script.read_bytes())):
            self.assertEqual((done.returncode, done.stdout.decode("latin-1"), done.stderr), (0, traced(script), b""))
        refused = run(["--json", "examples/refused.ntb"])
        self.assertEqual(refused.returncode, 3)
        self.assertEqual(json.loads(refused.stdout), {"refused": {"line": 12, "word": 5, "cause": "badhex"}})


if __name__ == "__main__":
    unittest.main()
