"""Checks of scripts: the line of one without a fault, and the faulty lines of one with some."""

from __future__ import annotations

import re
import unittest

from ntbview.common import Script, Status
from ntbview.messages import Checked, check, fault_text

from . import support

HEAD = "ntb 1\nhost a\nhost b\n"
PAIR = HEAD + "pair p a b\n"
DEVICE = "dev {} p {} 0 02000000000{} stop=1 start=1\n"


def checked(text: str) -> Checked:
    """What a check says of a script."""
    return check(support.program(), Script("x", text.encode("latin-1")))


def faults(text: str) -> list[str]:
    """The line, the column and the cause of each fault that is told."""
    return [line.split(":", 1)[1].rsplit(":", 1)[0] for line in checked(text).lines if re.match(r"x:\d+:", line)]


class Checks(unittest.TestCase):
    """Each test checks small scripts."""

    def test_scripts_without_a_fault(self) -> None:
        counts = "x: ok pairs 1 devices 0 switches 0 steps 3 frames 5 breaks 1 hosts 2"
        text = PAIR + "steps\nlandall p A 3\ntraffic\nflood p A 0 5 8\nbreak p\n"
        self.assertEqual(checked(text), Checked(Status.HOLDS, [counts]))
        self.assertEqual(checked(text[:-1]), Checked(Status.HOLDS, [counts]))
        self.assertEqual(checked("reads 1\n# A comment.\nbreak\ndrop\n"), Checked(Status.HOLDS, ["x: ok steps 2"]))

    def test_script_that_is_too_long(self) -> None:
        said = "x: too long: a script has at most 16,777,216 bytes"
        self.assertEqual(checked("\n" * 16777217), Checked(Status.LONG, [said]))

    def test_one_fault(self) -> None:
        hint = "no line of the declarations begins so; did you mean host? It is written: host NAME"
        lines = ["x:2:1: unknownword: hosts", "    hosts a", "    ^^^^^", hint]
        self.assertEqual(checked("ntb 1\nhosts a\n"), Checked(Status.REFUSED, lines))
        self.assertEqual(faults("ntb 2\nhosts a\n"), ["1:1: badheader"])

    def test_several_faults(self) -> None:
        text = PAIR + "steps\nsend p A 0 6\nland p A 0\nland q A 0\n\tsend p A 0 61\r\nlook p A 1\n"
        text += "traffic\nframe p A 0 6"
        wanted = ["6:12: badhex", "8:6: unknownname", "9:1: nottext", "10:10: unknownname", "12:13: badhex"]
        self.assertEqual(faults(text), wanted)
        self.assertEqual(faults("reads 1\nland A 07\nbreak\nlnad\n"), ["2:1: badline", "4:1: badline"])

    def test_at_most_twenty_are_told(self) -> None:
        for many in (20, 21):
            lines = checked(PAIR + "steps\n" + "send p A 0 6\n" * many).lines
            more = ["20 faulty lines are told; there may be more"] if many > 20 else []
            self.assertEqual(lines[80:], more)

    def test_names_that_a_faulty_line_would_have_declared(self) -> None:
        steps = "class p A 0 3\n" + DEVICE.format("d", "A", 1)
        steps += "steps\nsend p A 0 61\nwake d\nland q A 0\nland p C 0\n"
        self.assertEqual(faults(HEAD + "pair p a b fast\n" + steps), ["4:12: unknownword", "10:6: unknownname"])
        self.assertEqual(faults(HEAD + "piar p a b\n" + steps), ["4:1: unknownword", "10:6: unknownname"])
        again = HEAD + "pair p a b fast\npair p a b\nsteps\nsend p A 1 61\n"
        self.assertEqual(faults(again), ["4:12: unknownword", "7:10: unknownname"])
        self.assertEqual(faults(PAIR + "pair p a b\nsteps\nland p A 07\n"), ["5:6: repeated", "7:10: badnumber"])

    def test_ports_of_a_faulty_switch(self) -> None:
        devices = DEVICE.format("d", "A", 1) + DEVICE.format("e", "B", 2)
        text = PAIR + devices + "switch s d e\nsteps\nxnext d\nrelay s 0\nwake d\nwake f\n"
        self.assertEqual(faults(text), ["7:1: badswitch", "12:6: unknownname"])

    def test_part_whose_line_is_faulty_or_missing(self) -> None:
        self.assertEqual(faults(PAIR + "stepps\nsend p A 0 61\nland p A 07\n"), ["5:1: unknownword", "7:10: badnumber"])
        text = PAIR + "steps now\nland p A 0\ntraffic x\nframe p A 0 6\n"
        self.assertEqual(faults(text), ["5:1: unknownword", "7:1: unknownword", "8:13: badhex"])
        self.assertEqual(faults(PAIR + "send p A 0 61\nland p A 0\nhost a\n"), ["5:1: unknownword", "7:6: repeated"])

    def test_the_first_fault_is_the_programs_own(self) -> None:
        lines = (support.TOP / "examples" / "first.ntb").read_bytes().decode("latin-1").split("\n")
        for at in (at for at, line in enumerate(lines) if line and not line.startswith("#")):
            script = Script("x", "\n".join([*lines[:at], lines[at] + " 0z", *lines[at + 1 :]]).encode("latin-1"))
            first = fault_text(script, support.program().reply("check", script.data).first)
            self.assertNotEqual(first, [])
            self.assertEqual(check(support.program(), script).lines[: len(first)], first)
