"""Explorations: their text as dataclasses, what is said where there is none, and the search outside the program."""

from __future__ import annotations

import sys
import unittest

from ntbview.common import Failure, Script, Status, read_script
from ntbview.explore import BRUTE, explored
from ntbview.process import Program

from . import support

TEXT = """outcomes 2 states 4
outcome 1
by 8 1 land p A 0
by 8 1 land p A 2
by 8 3 land q B 0
8 queue 0 -
outcome 2
8 queue 1 chunk 0 0 0
always 6 ok 0
always 7 posted chunk 0 0 0
end
"""


def stand_in(text: str, status: int = 0) -> Program:
    """A program that answers the same to all commands."""
    code = f"import sys; sys.stdin.read(); sys.stdout.write({text!r}); sys.exit({status})"
    return Program((sys.executable, "-c", code))


class Explorations(unittest.TestCase):
    """What is read of a text, or said of none."""

    def test_parts(self) -> None:
        """Outcomes, their landings by line and step, their answers by line, and what is always."""
        found = explored(stand_in(TEXT), Script("s", b"ntb 1\n"))
        one, two = found.outcomes
        self.assertEqual((one.number, two.number), (1, 2))
        self.assertEqual(one.landings, {(8, 1): ["land p A 0", "land p A 2"], (8, 3): ["land q B 0"]})
        self.assertEqual(two.landings, {})
        self.assertEqual(found.answers(one, 8), ["queue 0 -"])
        self.assertEqual(found.answers(two, 8), ["queue 1 chunk 0 0 0"])
        self.assertEqual(found.answers(two, 7), ["posted chunk 0 0 0"])
        self.assertEqual(found.answers(two, 9), [])
        self.assertEqual(found.told_place(8, 1), "line 8")

    def failure(self, program: Program, data: bytes = b"ntb 1\n") -> tuple[Status, str]:
        """How an exploration fails."""
        with self.assertRaises(Failure) as raised:
            explored(program, Script("s", data))
        return raised.exception.status, raised.exception.message

    def test_none(self) -> None:
        """Each status of the program, and a text that breaks off."""
        many, long = "more than 1,000,000 states can be reached", "too long: a script has at most 16,777,216 bytes"
        self.assertEqual(self.failure(stand_in("too many states\n", 8)), (Status.STATES, many))
        self.assertEqual(self.failure(stand_in("too long\n", 7)), (Status.LONG, long))
        self.assertEqual(self.failure(stand_in("usage\n", 2))[0], Status.ENVIRONMENT)
        self.assertEqual(self.failure(stand_in(TEXT[:-4]))[0], Status.ENVIRONMENT)
        self.assertEqual(self.failure(stand_in(TEXT[:-1]))[0], Status.ENVIRONMENT)
        self.assertEqual(self.failure(stand_in(""))[0], Status.ENVIRONMENT)
        self.assertEqual(self.failure(support.program(), b"ntb 2\n")[0], Status.REFUSED)
        self.assertEqual(self.failure(support.program(), b"reads 1\n")[0], Status.WORDS)

    def test_brute(self) -> None:
        """The search outside the program finds the same outcomes."""
        script = read_script(str(support.TOP / "examples/litmus/length.ntb"))
        mine, brute = explored(support.program(), script), explored(BRUTE, script)
        self.assertEqual([each.answers for each in mine.outcomes], [each.answers for each in brute.outcomes])
        self.assertEqual(mine.always, brute.always)


if __name__ == "__main__":
    unittest.main()
