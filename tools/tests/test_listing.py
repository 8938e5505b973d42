"""Tests of listings."""

from __future__ import annotations

import unittest

from ntbview.common import Script
from ntbview.listing import listing, listing_of_reads, shown_line
from ntbview.trace import Trace

from . import support


def listed(script: Script, trace: Trace) -> list[str]:
    """The lines of a listing."""
    return "".join(listing(script, trace)).split("\n")


class Listings(unittest.TestCase):
    """Listings of scripts."""

    def test_each_step_has_its_answer(self) -> None:
        for path in sorted((support.TOP / "examples").glob("*.ntb")):
            with self.subTest(path.name):
                script, trace = support.trace_of(path.read_text("latin-1"))
                lines = listed(script, trace)
                steps = sum(line.startswith(b'{"line":') for line in trace.lines)
                refused = trace.refusal is not None
                self.assertEqual(sum(line.startswith("         ") for line in lines), 1 if refused else steps)
                shown = [line[:5].strip() for line in lines if line[:5].strip().isdigit()]
                last = trace.refusal.line if trace.refusal else len(script.lines)
                self.assertEqual(shown, [str(number) for number in range(1, last + 1)])
                for at in range(trace.first, len(trace.lines)) if steps and steps < 2000 else ():
                    if trace.line_at(at):
                        self.assertIn(shown_line(trace.step(at).said), "\n".join(lines))

    def test_a_landing_says_what_it_passed(self) -> None:
        lines = listed(*support.trace_of((support.TOP / "examples/early.ntb").read_text()))
        self.assertTrue(any(line.endswith("landed chunk 0 0 2, past 2 earlier") for line in lines))
        self.assertTrue(any("blocked: flag 0 0 may not pass " in line for line in lines))

    def test_a_trace_without_its_end(self) -> None:
        script, trace = support.trace_of((support.TOP / "examples/first.ntb").read_text())
        self.assertIn("       end", listed(script, trace))
        self.assertIn("       (the trace was cut off: it has no line `end`)", listed(script, Trace(trace.lines[:-1])))

    def test_a_refused_script(self) -> None:
        script, trace = support.trace_of("ntb 1\n# a\nwrong\nsteps\n")
        cause = trace.refusal.cause if trace.refusal else ""
        self.assertEqual(listed(script, trace)[:4], ["    1  ntb 1", "    2  # a", "    3  wrong",
                                                     f"         refused: {cause}. No step of the script was made."])

    def test_a_refused_script_whose_lines_look_like_a_trace(self) -> None:
        script = Script("odd", b'ntb 1\nhost end\n{"trace":1}\n{"end":true}\n')
        self.assertIn('    3  {"trace":1}', listed(script, Trace([b"refused line 3 unknownword\n"])))

    def test_long_payloads_are_cut_and_odd_bytes_replaced(self) -> None:
        script = Script("odd", b"ntb 1\n# \x1b[1m " + b"ab" * 17 + b"\r\n" + b"cd" * 16)
        lines = listed(script, Trace([b'{"trace":1}\n', b'{"end":true}\n']))
        self.assertEqual(lines[1:3], ["    2  # ?[1m " + "ab" * 12 + "..(17 bytes)", "    3  " + "cd" * 16])

    def test_many_steps_of_one_line_come_in_pieces(self) -> None:
        look = b'"step":{"name":"look","pair":"p","side":"A","queue":0}'
        step = b'{"line":1,' + look + b',"answer":{"name":"empty"},"made":false}\n'
        trace = Trace([b'{"trace":1}\n', *[step] * 2500, b'{"end":true}\n'])
        pieces = list(listing(Script("many", b"look p A 0\n"), trace))
        self.assertLessEqual(max(piece.count("\n") for piece in pieces), 1001)
        self.assertEqual("".join(pieces).count("         empty\n"), 2500)


class ListingsOfReads(unittest.TestCase):
    """Listings of texts of reads."""

    def test_answers_stand_under_their_lines(self) -> None:
        script = Script("reads", b"reads 1\n# a\nread A 0 1\nland A 0\n")
        lines = "".join(listing_of_reads(script, ["3 read 0", "4 landed read 0", "end"])).split("\n")
        self.assertEqual(lines[2:4], ["    3  read A 0 1", "         read 0"])
        self.assertEqual(lines[4:6], ["    4  land A 0", "         landed read 0"])
        self.assertEqual(lines[6:8], ["", "       end"])

    def test_a_refused_text(self) -> None:
        script = Script("reads", b"reads 1\nwrong\nread A 0 1\n")
        lines = "".join(listing_of_reads(script, ["refused line 2 badline"])).split("\n")
        self.assertEqual(lines[1:3], ["    2  wrong", "         refused: badline. No step of the script was made."])

    def test_a_reply_that_is_cut_off(self) -> None:
        script = Script("reads", b"reads 1\nread A 0 1\n")
        for reply in (["2 read 0"], []):
            self.assertIn("(the reply was cut off: it has no line `end`)", "".join(listing_of_reads(script, reply)))


if __name__ == "__main__":
    unittest.main()
