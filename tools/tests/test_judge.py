"""Verdicts: conditions of answers, of texts of traffic, and of outcomes; scripts and comments that can't be judged."""

from __future__ import annotations

import sys
import unittest
from typing import Optional

from ntbview.common import Script, Status
from ntbview.conditions import Wish
from ntbview.explore import BRUTE
from ntbview.judge import Judged, are_wanted, judge
from ntbview.process import Program, Reply

from . import support
from .test_explore import stand_in

HEAD = "ntb 1\nhost a\nhost b\npair p a b up strict size=4096 mtu=1023\n"
BROKEN = (
    HEAD
    + """steps
#= ok 0; posted chunk 0 0 0; ..; posted bell 0
send p A 0 61
#= ..; landed bell 0
#! landed ver; landed pad
landall p A 4
# The first answer is another one.
#= empty
# A comment between.
#= frame 0 ..
recv p B 0
#=
look p B 0
#= lane p A 0 1 accepted 1 delivered 0
#= ..
"""
)
BROKEN_SAID = [
    (8, "wanted: ..; landed bell 0; came: landed chunk 0 0 0; landed len 0 0; landed ver 0 0; landed flag 0 0"),
    (9, "not wanted: landed ver; came: landed ver 0 0"),
    (12, "wanted: empty; frame 0 ..; came: ready 0 1; frame 0 61; cleared 0; acked 0"),
    (16, "wanted: no answer; came: empty"),
    (18, "wanted: lane p A 0 1 accepted 1 delivered 0; ..; came: lane p A 0 1 accepted 1 delivered 1"),
]
STREAM = """ntb 1
host a
host b
pair p a b
#= lane p A 0 sessions 2 accepted 2 left 0; ..
#= stream p A 0 items 2 sessions 2; item 0 61; item 1 62
#! item 2
traffic
frame p A 0 61
frame p A 0 63
break p
"""
LITMUS = """ntb 1
host a
host b
pair p a b up raw size=4096 mtu=1023
steps
poke p A 0 0 61
poke p A 0 1019 01000000
#call flags
showmem p B 1019 4
{}
showmem p B 0 1
"""
REFUSED = HEAD + "steps\n{}\nsend p A 0 616\n"


def judged(text: str, vacuous: bool = False, alone: bool = False, brute: Optional[Program] = None) -> Judged:
    """A script of this text, judged."""
    return judge(support.program(), Script("s.ntb", text.encode("latin-1")), vacuous, alone, brute)


def said(found: Judged) -> list[tuple[int, str]]:
    """The lines of the conditions that aren't met, and what is said of them."""
    return [(verdict.condition.at[0], verdict.said) for verdict in found.unmet]


class Answers(unittest.TestCase):
    """Conditions `#=` and `#!`."""

    def test_broken(self) -> None:
        """Conditions that don't hold, of lines and of counts, in the order of the script."""
        found = judged(BROKEN)
        self.assertEqual((found.status, len(found.verdicts)), (Status.FAILS, 7))
        self.assertEqual(said(found), BROKEN_SAID)
        self.assertEqual((found.troubles, found.message, found.faults, found.exploration), ([], [], [], None))

    def test_stream(self) -> None:
        """Conditions above the traffic speak of the joined run or of the stream."""
        found = judged(STREAM)
        text = "stream p A 0 items 2 sessions 2; item 0 61; item 1"
        self.assertEqual((found.status, len(found.verdicts)), (Status.FAILS, 3))
        self.assertEqual(said(found), [(6, f"wanted: {text} 62; came: {text} 63")])

    def test_many_answers(self) -> None:
        """Of many answers the first six are told, and long ones are cut."""
        found = judged(HEAD + f"steps\n#=\nsend p A 0 {'61' * 400}\n#=\nshowmem p B 0 60\n")
        self.assertTrue(said(found)[0][1].endswith("; and 3 more"))
        self.assertRegex(said(found)[-1][1], r"; came: mem [0-9a-f]{86}\.\. \(124 letters\)$")

    def test_only_what_is_asked(self) -> None:
        """The traffic is sent, and a script explored, only where a condition speaks of that."""
        words = []
        code = "import sys; sys.stdin.read(); sys.stderr.write(sys.argv[1]); print('end'); sys.exit(0)"

        class Noted(Program):
            """A program that notes the commands."""

            def reply(self, command: str, script: bytes) -> Reply:
                """What a command says."""
                words.append(command)
                return super().reply(command, script)

        noted = Noted((sys.executable, "-c", code))
        for text in (HEAD + "traffic\n", HEAD + "#= ..\ntraffic\n", HEAD + "#! stream\ntraffic\n", "reads 1\n"):
            judge(noted, Script("s", text.encode()))
            words.append("/")
        self.assertEqual(" ".join(words), "replay / replay run / replay stream / reads /")

    def test_wanted(self) -> None:
        """`..` alone is any number of answers, at an answer's end any words."""
        wishes = {
            "a": [(["a"], True), ([], False), (["a", "a"], False), (["a b"], False)],
            "": [([], True), (["a"], False)],
            "..": [([], True), (["a"], True), (["a", "b"], True)],
            "a ..": [(["a"], True), (["a b c"], True), (["ab"], False)],
            "..; a": [(["a"], True), (["b", "a"], True), (["a", "b"], False), (["a", "b", "a"], True)],
            "a; ..; b": [(["a", "b"], True), (["a", "c", "b", "b"], True), (["a"], False), (["a", "b", "c"], False)],
            "..; a; ..; b; ..": [(["b", "a", "a", "c", "b"], True), (["b", "a"], False)],
        }
        for text, cases in wishes.items():
            parts = [part.split() for part in text.split("; ") if part]
            wish = [Wish(tuple(part[:-1] if part[-1] == ".." else part), part[-1] == "..") for part in parts]
            for came, wanted in cases:
                self.assertEqual(are_wanted(wish, came), wanted, (text, came))

    def test_reads(self) -> None:
        """A text of reads has conditions too."""
        story = (support.TOP / "examples/flush.reads").read_text()
        self.assertEqual(judged(story).status, 0)
        self.assertGreater(len(judged(story).verdicts), 0)
        self.assertEqual(judged("reads 1\nfoo\n").status, Status.REFUSED)


class Refusals(unittest.TestCase):
    """Scripts and comments that can't be judged."""

    def test_spoken_of(self) -> None:
        """A condition that names the cause is met."""
        found = judged(REFUSED.format("#= refused badhex"))
        self.assertEqual((found.status, len(found.verdicts), found.message), (0, 1, []))

    def test_not_spoken_of(self) -> None:
        """Without a condition above the line it is status 3, with the place and what was wanted."""
        found = judged(REFUSED.format("#! ok"))
        self.assertEqual(found.status, Status.REFUSED)
        self.assertEqual(found.troubles, [(Status.REFUSED, "s.ntb:7: refused badhex, and no condition says so")])
        self.assertEqual(found.message[0], "s.ntb:7:12: badhex: 616")

    def test_another_cause(self) -> None:
        """A condition that names another cause fails."""
        found = judged(REFUSED.format("#= refused toomany"))
        self.assertEqual(found.status, Status.FAILS)
        self.assertEqual(said(found), [(6, "wanted: refused toomany; came: refused badhex")])
        self.assertEqual(found.message[0], "s.ntb:7:12: badhex: 616")

    def test_litmus(self) -> None:
        """Litmus conditions of a refused script can't be judged."""
        found = judged(HEAD + "steps\n#always ok 0; ok 1\nbegin p A 0 61\n#= refused badhex\nsend p A 0 616\n")
        self.assertEqual(found.status, Status.REFUSED)
        self.assertEqual(said(found), [(6, "always ok 0: it can't be judged"), (6, "always ok 1: it can't be judged")])
        self.assertEqual(found.troubles, [(Status.REFUSED, "s.ntb: the script is refused, so it has no outcomes")])
        self.assertEqual(judged(REFUSED.format(""), alone=True).status, Status.REFUSED)

    def test_faults(self) -> None:
        """A comment that is no condition is told with its place, and the others are judged."""
        found = judged(BROKEN.replace("#= empty\n", "#= emty\n"))
        self.assertEqual((found.status, len(found.faults)), (Status.REFUSED, 1))
        self.assertEqual(found.message[0][:24], "s.ntb:12:4: condition: n")
        self.assertEqual(found.message[1:3], ["    #= emty", "       ^^^^"])
        self.assertIn((9, "not wanted: landed ver; came: landed ver 0 0"), said(found))

    def test_statuses(self) -> None:
        """Too many states, too long a script, memory, and a program that ends otherwise."""
        many = "import sys; sys.stdin.read(); print('end'); sys.exit({'explore': 8}.get(sys.argv[1], 0))"
        script = Script("s", LITMUS.format("#= ..\n#never mem 00").encode())
        found = judge(Program((sys.executable, "-c", many)), script)
        self.assertEqual(found.troubles, [(Status.STATES, "s: more than 1,000,000 states can be reached")])
        self.assertEqual((found.status, [each.ruling for each in found.verdicts]), (8, ["holds", "fails"]))
        for status, wanted in ((7, 7), (6, 6), (1, 9), (101, 9), (0, 9)):
            self.assertEqual(judge(stand_in("x\n", status), Script("s", b"ntb 1\n")).status, wanted)
        self.assertEqual(judge(Program(("/absent",)), Script("s", b"ntb 1\n")).status, 9)


class Litmus(unittest.TestCase):
    """Litmus conditions."""

    def verdict(self, condition: str, vacuous: bool = False) -> tuple[str, str, Optional[int]]:
        """The verdict on a condition, without the condition itself, and the outcome that shows it."""
        found = judged(LITMUS.format(condition), vacuous)
        (verdict,) = found.verdicts
        self.assertEqual(found.status, verdict.ruling != "holds")
        self.assertEqual(verdict.said[: len(condition)], condition[1:] + ":")
        return verdict.ruling, verdict.said[len(condition) + 1 :], verdict.witness

    def test_kinds(self) -> None:
        """Each kind, met and not, by all outcomes or some."""
        self.assertEqual(self.verdict("#always mem ..")[:2], ("holds", "in 4 of 4 outcomes"))
        self.assertEqual(self.verdict("#always mem 00"), ("fails", "in 2 of 4 outcomes", 2))
        self.assertEqual(self.verdict("#never mem 62"), ("holds", "in 0 of 4 outcomes", None))
        self.assertEqual(self.verdict("#never mem 61"), ("fails", "in 2 of 4 outcomes", 2))
        self.assertEqual(self.verdict("#sometimes mem 61"), ("holds", "in 2 of 4 outcomes", 2))
        self.assertEqual(self.verdict("#sometimes mem 62"), ("fails", "in 0 of 4 outcomes", None))
        of = "in 1 of 2 outcomes that are so, of 4"
        self.assertEqual(self.verdict("#never mem 00 where flags mem 01000000"), ("fails", of, 3))
        both = "#never mem 00 where flags mem 01000000 and flags mem 00000000"
        self.assertEqual(self.verdict(both)[0], "vacuous")

    def test_vacuous(self) -> None:
        """A `where` that is true of no outcome fails, unless that is allowed."""
        of = "in 0 of 0 outcomes that are so, of 4"
        for kind in ("always", "never", "sometimes"):
            condition = f"#{kind} mem 00 where flags mem 02000000"
            self.assertEqual(self.verdict(condition), ("vacuous", of, None))
            self.assertEqual(self.verdict(condition, vacuous=True), ("holds", of, None))

    def test_example(self) -> None:
        """A condition that fails has its counterexample; one that holds has none."""
        found = judged(LITMUS.format("#never mem 00 where flags mem 01000000\n#sometimes mem 61"))
        fails, holds = found.verdicts
        self.assertEqual(holds.example, [])
        command = "./ntbsim --explore --witness 10 s.ntb > w.ntb && ./ntbsim --draw w.ntb > w.svg"
        lines = ["before line 9, a write lands: land p A 1", "line 9: mem 01000000", "line 12: mem 00", command]
        self.assertEqual(fails.example, lines)

    def test_alone(self) -> None:
        """Litmus conditions alone, also by the search outside the program."""
        text = LITMUS.format("#= mem 99\n#never mem 00")
        for brute in (None, BRUTE):
            found = judged(text, alone=True, brute=brute)
            self.assertEqual(said(found), [(11, "never mem 00: in 2 of 4 outcomes")])
        self.assertEqual(len(judged(text).verdicts), 2)
        self.assertEqual(judged("reads 1\n", alone=True).status, Status.WORDS)

    def test_none(self) -> None:
        """A script without a condition is met, and explored only where that is asked."""
        found = judged(HEAD)
        self.assertEqual((found.status, found.verdicts, found.exploration), (0, [], None))
        alone = judged(HEAD, alone=True)
        self.assertEqual(len(alone.exploration.outcomes if alone.exploration else []), 1)


if __name__ == "__main__":
    unittest.main()
